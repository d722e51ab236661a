# make demo: proves what the demonstration needs, and answers the sample lots.  make test: the whole gate.
# make definitions: the definitions run on cases with answers.
# make compare N=.. SEED=..: the proved library against the second program.  make bench: their speed side by side.
SHELL := /bin/bash
.SHELLFLAGS := -euo pipefail -c
.PHONY: demo test tools toolchain layout second prove archive served library compared compare bench definitions clean
.NOTPARALLEL:

# What rt ci printed, kept so that its verdict can be the gate's last line.
GATE := $(CURDIR)/target/gate.log
# What another command of rt printed.
SAID := $(CURDIR)/target/said.log
N ?= 20000
SEED ?= 1
CARGO := cargo --offline --quiet
# The operations that the proved library has.
OPERATIONS := $(shell sed -n 's/^default = \[\(.*\)\]/\1/p' compare/Cargo.toml | tr -d '",')
# The library is for x86-64. Another machine cannot link it: there a program serves it, under the kit's emulator.
MACHINE := $(shell uname -m)
SERVED := $(if $(filter-out x86_64,$(MACHINE)),served)
# The kit is where rt is. Its programs are for x86-64 alone: another machine has to run them, and has to have an emulator at hand.
KIT = $(abspath $(dir $(realpath $(shell command -v rt)))..)
CLANG = $(KIT)/toolchain/bin/clang
LINK = $(KIT)/bin/rattle-link
EMULATOR = $(shell command -v qemu-x86_64)
LOADER = $(KIT)/toolchain/lib/ld-linux-x86-64.so.2
# What stands before a program for x86-64 in order to run it here.
RUN = $(if $(SERVED),"$(EMULATOR)" "$(LOADER)" --library-path "$(KIT)/toolchain/lib")

# $(call told,FOLDER,COMMAND): a command of rt in a crate's folder; of what it says, a line for each crate that it proves, and the
# errors if it fails.
TELL := awk '/^crate [a-z0-9_]+:/ { crate = substr($$2, 1, length($$2) - 1) } \
  /^logic=/ { print crate ($$1 == "logic=proved" ? ": proved, " $$2 : ": NOT PROVED"); fflush() } \
  /^rt: .*(did not build|NOT PROVED|FAILED)/ { print; fflush() }'
told = mkdir -p target; (cd $(1) && $(2)) 2>&1 | tee $(SAID) | $(TELL) \
  || { grep -m 3 ': error' $(SAID) | cut -c 1-300 || true; echo "$(2) in $(1) failed; all that it said is in $(SAID)"; exit 1; }
# $(call tested,FOLDER): a program's own tests, their result, and all that they say if they fail.
tested = cd $(1); mkdir -p target; $(CARGO) test > target/tests.log 2>&1 || { cat target/tests.log; exit 1; }; \
  grep -E '^(test result|warning)' target/tests.log

# What each command needs.
demo toolchain prove archive served: NEEDED := rt
layout definitions: NEEDED := rt python3
second: NEEDED := cargo rustc cc
library compared compare bench: NEEDED := rt cargo rustc cc
test: NEEDED := rt cargo rustc cc python3

demo: tools toolchain
	@$(call told,crates/demo,{ rt run < stdin 2>&1 >&3; } 3> $(CURDIR)/target/demo.txt)
	@cat target/demo.txt

# Behind rt ci, what else wants the proved crates takes them as it left them.
test: PROVED := yes
test: tools toolchain layout second prove definitions compared
	@tail -n 1 $(GATE)

# What a command needs and is not at hand, by name.
tools:
	@lacks() { missing=1; echo "missing: $$*"; }; missing=0; for tool in $(NEEDED); do case $$tool in \
	  rt) command -v rt > /dev/null || lacks "rt, of the Rattle kit that TOOLCHAIN names: $$(head -n 1 TOOLCHAIN)" ;; \
	  *) command -v $$tool > /dev/null || lacks $$tool ;; esac; done; exit $$missing

# The toolchain that the proofs were made with is named in TOOLCHAIN; another one is said, and tried.
toolchain: tools
	@if [ "$$(rt version)" != "$$(cat TOOLCHAIN)" ]; then \
	  echo "toolchain: '$$(rt version)' is at hand, TOOLCHAIN names '$$(cat TOOLCHAIN)'"; fi

# Every must-fail edit at the text that it changes. (rt ci refuses a file that is not in the layout of rt fmt.)
layout: tools
	@tools/edits.py

# The second program: its own tests, every shared case, and the documents in the published layout.
second: tools
	@$(call tested,second)
	@cd second && $(CARGO) build --release
	@for file in vectors/*.txt; do second/target/release/second check-vectors $$file; done
	@second/target/release/second published published

# Every crate proved from nothing, every must-fail edit refused, every program run. rt ci passes an edit that it cannot apply or read:
# here each has to be refused.
EDITS = $(words $(wildcard crates/*/must-fail/*.edit))
prove: tools
	@mkdir -p target
	@rt ci 2>&1 | tee $(GATE)
	@tail -n 1 $(GATE) | grep -qE '^[0-9]+ passed, 0 failed$$'
	@grep -E '^rt: ok' $(GATE) | grep -E '; must-fail edits: $(EDITS) refused' | grep -qvE ', [1-9][0-9]* bad' \
	  || { grep 'BAD EDIT' $(GATE) | cut -c 1-300 || true; echo "not each of the $(EDITS) must-fail edits was refused"; exit 1; }

# The static library of the proved operations, under the name that C programs link.
LIBRARY := target/staticlib/libregister.a
archive: tools
	@mkdir -p target/staticlib
	@if [ "$(PROVED)" ] && tools/archive.py ready register_c; \
	  then tools/archive.py build $(LIBRARY) > $(SAID) 2>&1 || { cat $(SAID); exit 1; }; \
	  else { $(call told,crates/register_c,rt lib); }; cp crates/register_c/out/libregister_c.a $(LIBRARY); fi

# The program that serves the library, and the command that runs it: by the kit's own compiler, linker and emulator.
served: archive
	@missing=0; for part in "$(CLANG)" "$(LINK)" "$(LOADER)"; do \
	  [ -e "$$part" ] || { missing=1; echo "missing: $$part, of the Rattle kit"; }; done; \
	  [ "$(EMULATOR)" ] || { missing=1; echo "missing: qemu-x86_64, which runs the library's program on $(MACHINE)"; }; exit $$missing
	@mkdir -p target/serve
	@"$(CLANG)" --target=x86_64-unknown-linux-gnu -std=c11 -O2 -Wall -Wextra -Werror -ffreestanding -nostdlibinc \
	  -Icompare/serve/freestanding -Iinclude $(OPERATIONS:%=-DHAS_%) -c compare/serve/serve.c -o target/serve/serve.o
	@"$(LINK)" --target x86_64-unknown-linux-gnu --toolchain "$(KIT)/toolchain" -o target/serve/program \
	  target/serve/serve.o $(LIBRARY) > $(SAID) 2>&1 || { cat $(SAID); exit 1; }
	@printf '#!/bin/sh\nexec %s\n' '$(RUN) "$(CURDIR)/target/serve/program"' > target/serve/serve
	@chmod +x target/serve/serve

# The library as this machine can call it, and the program that compares it with the second one.
library: tools archive $(SERVED)
	@cd compare && $(CARGO) build --release

# The comparison's own tests, a smaller run for each operation, and every shared case. Each operation must say its line.
compared: tools library
	@$(call tested,compare)
	@for op in $(OPERATIONS); do compare/target/release/compare run --count 2000 --seed $(SEED) --op $$op | tee target/compare.log; \
	  grep -qE "^$$op: [1-9][0-9]* cases, 0 differences$$" target/compare.log; done
	@for file in vectors/*.txt; do compare/target/release/compare vectors $$file | grep agree; done

compare: tools library
	@compare/target/release/compare run --count $(N) --seed $(SEED)

# Times under an emulator say nothing: there the library is compiled for this machine, to be timed alone.
ifdef SERVED
bench: tools
	@tools/native-archive
	@TANVELIS_NATIVE=1 TANVELIS_LIB=../target/native CARGO_TARGET_DIR=compare/target/native cargo build -q --release --manifest-path compare/Cargo.toml 2>&1 | { grep -v "not a recognized processor" || true; }
	@compare/target/native/release/compare bench
else
bench: tools library
	@compare/target/release/compare bench
endif

# CASES is a file of cases; without one, the shared small cases and the sample lots are run.
definitions: tools
	@if ! { [ "$(PROVED)" ] && tools/archive.py ready paper; }; then { $(call told,crates/paper,rt lib); }; fi
	@for file in $(or $(CASES),vectors/lots.txt vectors/small.txt); do echo "$$file"; tools/definitions.py $$file; done

clean:
	@rm -rf target second/target compare/target crates/*/out
