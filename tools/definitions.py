#!/usr/bin/env python3
"""Run the definitions of document 01 on cases with answers, and say how many agree.

    tools/definitions.py FILE [--most N] [--op OP]

FILE has cases in the format of vectors/README.md. Each case becomes one antt statement, that the definition's answer of
the inputs is the answer in the file, and the checker computes both sides. The statements stand in a crate of their own, in
a folder that goes with the run and lies outside the repository, where rt ci would refuse it; they need the crates below
proved and built, in crates/NAME/out (make definitions does it first).
"""
import os
import re
import subprocess
import sys
import tempfile

ROOT = os.path.dirname(os.path.dirname(os.path.abspath(__file__)))
NAME = "running_cases"
DEPS = ["paper", "numbers", "signed", "order"]
OPS = ["check", "find", "normalise", "shred", "rebuild", "cell", "box"]
PER_FILE = 125

HEAD = """-- Made by tools/definitions.py: cases computed by the definitions.
use mathlib.Core.Path.{◌≡◌, refl}
use mathlib.Core.List.{List, [], ◌∷◌}
use Prim.Native.Nat.{ℕ, zero, suc}
use lib.ListN.{length}
use Rattle.numbers.specs.Little.{number, number_bytes}
use Rattle.paper.specs.Answers.{Carried, number_of, present_of, value_of, checked_carries, found_carries, document_carries, row_carries, cell_carries, box_carries}
use Rattle.paper.specs.Operations.{check_answer, find_answer, normalise_outcome, shred_outcome, rebuild_outcome, document_answer, metadata_written, value_written, row_answer, row_written, cell_answer, box_answer}
use Rattle.paper.specs.Running.{running}

"""


def list_of(text):
    """Bytes as the checker's list: the number they hold, and how many they are."""
    if text == "-":
        return "(number_bytes 0 0)"
    data = bytes.fromhex(text)
    return f"(number_bytes {len(data)} 0x{data[::-1].hex()})"


def held(text):
    """What written bytes are compared by: their count and the number they hold."""
    data = b"" if text == "-" else bytes.fromhex(text)
    return f"{len(data)} ∷ {int.from_bytes(data, 'little')}"


def carries(number, present, values):
    """The number, whether the answer is present, and its values."""
    return " ∷ ".join(str(word) for word in [number, present, *values]) + " ∷ []"


def there(number):
    """Number 0 is present, in the operations that have no absent."""
    return 1 if number == "0" else 0


KINDS = ["none", "bool", "int", "float", "double", "len", "uuid"]


def cell_values(kind, words):
    """A cell's kind and its two 64-bit words; the second is 0 unless the case names one."""
    held = [int(word) % 2**64 for word in words]
    return [KINDS.index(kind), *held, 0][:3]


def statement(op, left, right):
    """The two sides of the equation that a case states."""
    if op == "check":
        answer = f"check_answer {list_of(left[0])} {list_of(left[1])}"
        return f"said 0 (checked_carries ({answer}))", carries(right[0], there(right[0]), [])
    if op == "find":
        answer = f"find_answer {list_of(left[0])} {list_of(left[1])} {list_of(left[2])}"
        return f"said 2 (found_carries ({answer}))", carries(right[0], right[1], right[2:])
    if op in ("normalise", "rebuild"):
        outcome = f"({op}_outcome {list_of(left[0])} {list_of(left[1])})"
        rooms = f"{left[2]} {left[3]}"
        made = [f"({what}_written {outcome} {rooms})" for what in ("metadata", "value")]
        return (
            f"joint (said 2 (document_carries (document_answer {outcome} {rooms}))) {made[0]} {made[1]}",
            carries(right[0], there(right[0]), [*right[1:3], held(right[3]), held(right[4])]),
        )
    if op == "shred":
        outcome = f"(shred_outcome {list_of(left[0])} {list_of(left[1])} {list_of(left[2])})"
        return (
            f"joint (said 1 (row_carries (row_answer {outcome} {left[3]}))) (row_written {outcome} {left[3]}) []",
            carries(right[0], there(right[0]), [right[1], held(right[2]), held("-")]),
        )
    if op == "cell":
        answer = f"cell_answer {left[0]} {list_of(left[1])}"
        return f"said 3 (cell_carries ({answer}))", carries(right[0], there(right[0]), cell_values(right[1], right[2:]))
    answer = f"box_answer {list_of(left[0])} {list_of(left[1])}"
    return f"said 4 (box_carries ({answer}))", carries(right[0], right[1], right[2:])


SHARED = """-- An answer's number, whether it is present, and so many of its values.
values : (count place : ℕ) → Carried → List ℕ
values zero place answer = []
values (suc count) place answer = value_of answer place ∷ values count (suc place) answer

said : (count : ℕ) → Carried → List ℕ
said count answer = number_of answer ∷ present_of answer ∷ values count 0 answer

-- These, and what was written, by its count and the number it holds.
joint : List ℕ → List ℕ → List ℕ → List ℕ
joint [] first second = length first ∷ number first ∷ length second ∷ number second ∷ []
joint (value ∷ more) first second = value ∷ joint more first second

"""


def write_crate(crate, cases):
    """One module for each run of cases; the line where each case stands."""
    os.makedirs(os.path.join(crate, "src"))
    specs = os.path.join(crate, "specs")
    os.makedirs(specs)
    with open(os.path.join(crate, "src", "lib.rt"), "w") as f:
        f.write("// Cases computed by the definitions; see specs/.\n")
    places, modules = {}, []
    for op in OPS:
        mine = [c for c in cases if c[0] == op]
        for k in range(0, len(mine), PER_FILE):
            module = f"{op.capitalize()}{k // PER_FILE}"
            modules.append(module)
            text = HEAD + SHARED
            line = text.count("\n") + 1
            for number, (_, left, right, source) in enumerate(mine[k : k + PER_FILE]):
                said, expected = statement(op, left, right)
                name = f"case-{source}"
                text += f"{name} : ◌≡◌ ({said}) ({expected})\nunfolding running values said joint\n{name} = refl\n\n"
                places[(module, line)] = (op, source)
                line += 4
            with open(os.path.join(specs, module + ".antt"), "w") as f:
                f.write(text)
    with open(os.path.join(specs, "Lib.antt"), "w") as f:
        f.write("".join(f"mod {m}\n" for m in modules))
    return places


def run_crate(crate):
    words = ["rt", "check", NAME]
    for dep in DEPS:
        folder = f"{ROOT}/crates/{dep}/out/rlib"
        words += ["--extern", f"{dep}={folder}/{dep}.rlib", "-L", f"dependency={folder}"]
    return subprocess.run(words, capture_output=True, text=True, cwd=crate)


def main(argv):
    path, most, only = None, None, None
    rest = iter(argv)
    for word in rest:
        if word == "--most":
            most = int(next(rest))
        elif word == "--op":
            only = next(rest)
        else:
            path = word
    if path is None:
        print(__doc__)
        return 2
    cases, taken = [], dict.fromkeys(OPS, 0)
    for number, text in enumerate(open(path), 1):
        left, _, right = text.strip().partition(" | ")
        op, *args = left.split()
        if only not in (None, op) or (most is not None and taken[op] >= most):
            continue
        taken[op] += 1
        cases.append((op, args, right.split(), number))
    with tempfile.TemporaryDirectory(prefix="definitions-") as crate:
        places = write_crate(crate, cases)
        result = run_crate(crate)
    said = result.stdout + result.stderr
    wrong = set()
    for module, line in re.findall(r"specs/(\w+)\.antt:(\d+):\d+: (?:error|`)", said):
        start = max((at for m, at in places if m == module and at <= int(line)), default=None)
        if start is None:
            print(said[-3000:])
            return 1
        wrong.add(places[(module, start)])
    if not wrong and "logic=proved" not in said:
        print(said[-3000:])
        return 1
    for op in OPS:
        bad = sorted(source for o, source in wrong if o == op)
        print(f"{op}: {taken[op] - len(bad)} of {taken[op]} cases agree" + (f"; lines {bad[:10]} differ" if bad else ""))
    return 1 if wrong else 0


sys.exit(main(sys.argv[1:]))
