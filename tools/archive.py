#!/usr/bin/env python3
"""Build the static library over the crates' libraries that stand proved in crates/NAME/out.

    tools/archive.py ready CRATE                      whether the crate's library, or those that it uses, are as rt ci left them
    tools/archive.py build FILE [--toolchain FOLDER]  makes FILE, the archive of register_c

rt lib proves each crate below once more unless its own commands kept it, and what rt ci proved is not kept for it: behind
the gate that would be a second gate. rt ci leaves the libraries that it proved, with no stamp, in crates/NAME/out/rlib. Where
they all stand there with none, `ready` ends with 0, and `build` gives them to the kit's own command, which proves register_c
over them and compiles it. A library with a stamp is one that another command of rt built, of whatever text: `ready` ends with
1, and rt lib is right. --toolchain names another toolchain than the kit's.
"""
import os
import shutil
import subprocess
import sys

ROOT = os.path.dirname(os.path.dirname(os.path.abspath(__file__)))
KIT = os.path.dirname(os.path.dirname(os.path.realpath(shutil.which("rt") or "rt")))
CRATE = "register_c"


def uses():
    """What each crate of crates.txt uses, by its name."""
    found = {}
    for line in open(os.path.join(ROOT, "crates.txt")):
        said, _, libraries = line.partition("#")[0].partition(":")
        if said.strip():
            found[said.split()[0]] = libraries.split()
    return found


def below(crate, crates):
    """The repository's crates that a crate stands on."""
    found = []
    for name in crates[crate]:
        if name in crates:
            found += [it for it in [*below(name, crates), name] if it not in found]
    return found


def folder(crate):
    return f"{ROOT}/crates/{crate}/out/rlib"


def ready(crate):
    crates = uses()
    needed = below(crate, crates) + [crate] * (crate != CRATE)
    as_left = lambda it: os.path.isdir(f"{folder(it)}/{it}.rlib") and not os.path.lexists(f"{folder(it)}/stamp")
    return 0 if all(map(as_left, needed)) else 1


def build(archive, toolchain):
    crates = uses()
    words = [f"{KIT}/bin/rattle", "build", "--crate-name", CRATE, "src/lib.rt"]
    for name in ["core", "std", *(it for it in crates[CRATE] if it not in crates)]:
        words += ["--extern", f"{name}={KIT}/rlibs/{name}.rlib"]
    words += ["-L", f"dependency={KIT}/rlibs"]
    for name in below(CRATE, crates):
        if name in crates[CRATE]:
            words += ["--extern", f"{name}={folder(name)}/{name}.rlib"]
        words += ["-L", f"dependency={folder(name)}"]
    words += ["--antt-project", f"{KIT}/rattle/logic/antt-project.json", "--logic-built", f"{KIT}/logic_built"]
    words += ["--crate-type", "staticlib", "--links", f"{CRATE}="]
    words += ["--toolchain", toolchain, "--backend", "llvm", "-o", os.path.abspath(archive)]
    return subprocess.run(words, cwd=f"{ROOT}/crates/{CRATE}").returncode


def main(argv):
    if argv[:1] == ["ready"] and len(argv) == 2:
        return ready(argv[1])
    if argv[:1] == ["build"] and (len(argv) == 2 or argv[2:3] == ["--toolchain"] and len(argv) == 4):
        return build(argv[1], argv[3] if len(argv) == 4 else f"{KIT}/toolchain")
    print(__doc__)
    return 2


sys.exit(main(sys.argv[1:]))
