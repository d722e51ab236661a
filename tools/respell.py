#!/usr/bin/env python3
"""Bring this repository's own definitions and lemmas to the kit's spelling.

    tools/respell.py [--table]

Run once, after the kit's port.py. Words are in snake case: `numberAt` is `number_at`. A fact (what answers `Type`) and a
module are in camel case. In a lemma's name a dash stands only beside a definition of two words or more, as in
`number_at-none`; plain words are joined by `_`. Functions of src/, exported names, strings, inputs and outputs keep
theirs. --table prints the names and writes nothing.
"""
import os
import re
import sys

ROOT = os.path.dirname(os.path.dirname(os.path.abspath(__file__)))
TOKEN = re.compile(r"""[^\s(){}.;,@"«»\[\]`|/:⟨⟩⌜⌝→↦λ]+""")
CAMEL = re.compile(r"[a-z][a-z0-9]*(?:[A-Z][a-z0-9]*)+'*")
DECLARED = re.compile(r"^(\s*)((?:(?:abbrev|unfoldable|opaque|pub|data|record) )*)([^\s(){}:;,.]+)(?: [^:\n]*?)? :(?=\s)", re.M)


def files(*ends):
    for folder, dirs, names in os.walk(os.path.join(ROOT, "crates")):
        dirs[:] = sorted(d for d in dirs if d != "out")
        for name in sorted(names):
            if name.endswith(ends):
                yield os.path.join(folder, name)


def text_of(path):
    with open(path, encoding="utf-8") as f:
        return f.read()


def is_law_file(path):
    """A file of specs/ or straight in proofs/: not the proof of one function."""
    parts = os.path.relpath(path, os.path.join(ROOT, "crates")).split(os.sep)
    return len(parts) == 3 and parts[1] in ("specs", "proofs")


def words_of(name):
    """`idsInOrder` as ids, in, order."""
    return [w.lower() for w in re.findall(r"[A-Z]?[a-z0-9]+|[A-Z]", name)]


def is_fact(text, match):
    """What is declared answers a `Type`."""
    rest = text[match.end():]
    stop = re.search(rf"^\s*(?:unfolding\b|{re.escape(match.group(3))}(?=[\s={{]))", rest, re.M)
    signature = rest[: stop.start()] if stop else rest.split("\n\n")[0]
    return re.search(r"Type \d+\s*$", signature.strip()) is not None


def declared():
    """Names that a definition or a lemma of this repository declares: those of specs/, facts, and all."""
    specs, facts, everything = set(), set(), set()
    for path in files(".antt"):
        if not is_law_file(path):
            continue
        text = text_of(path)
        for match in DECLARED.finditer(text):
            name = match.group(3)
            if match.group(1) and not re.match(r"\s*(pub|abbrev|unfoldable)", match.group(2)) and "let " in text[text.rfind("\n", 0, match.start(3)) + 1: match.start(3)]:
                continue
            everything.add(name)
            if os.sep + "specs" + os.sep in path:
                specs.add(name)
            kind = match.group(2)
            if "abbrev" in kind or "unfoldable" in kind or "opaque" in kind:
                specs.add(name)
                if is_fact(text, match):
                    facts.add(name)
    return specs, facts, everything


def from_kit():
    """Names that are imported from the kit."""
    names = set()
    for path in files(".antt", ".rt"):
        for module, listed in re.findall(r"use ([\w.+'-]+)\.\{([^}]*)\}", text_of(path)):
            first = module.split(".")
            if first[0] == "Rattle" and first[1] in CRATES:
                continue
            names.update(n.strip().split(" as ")[0] for n in listed.split(","))
    return names


# Where the rule would give a name that is too near another one, a variable `columns` beside a constructor `no_columns`, or that stands
# already, a record `RowDone`.
OTHERWISE = {"noColumns": "none_named", "Row-Done": "RowsDone"}
# A fact whose name is that of a function in another crate.
IN_ONE_FILE = {os.path.join("paper", "specs", "Lots.antt"): {"holds": "Holds"}}

CRATES = set(os.listdir(os.path.join(ROOT, "crates")))


def bound_in(path):
    """The names of a file that could hide one another: in Rust, those of clauses and parameters; else all but paths."""
    text = text_of(path)
    if path.endswith(".antt"):
        return {m.group(0) for m in TOKEN.finditer(text) if not (m.start() and text[m.start() - 1] == ".")}
    clauses = re.findall(r"ghost use [^;]*;|(?:requires|ensures)\s*(?:\w+ )?\{(.*)\}\s*$", text, re.M)
    named = set(TOKEN.findall("\n".join(clauses)))
    named.update(n.strip() for listed in re.findall(r"ghost use [^;{]*\{([^}]*)\}", text) for n in listed.split(","))
    parameters = set(re.findall(r"(?:[(,]\s*)(?:mut )?([a-z_]\w*): ", text))
    return named | parameters


def table():
    specs, facts, everything = declared()
    facts.discard("holds")
    kit = from_kit()
    used = set()
    for path in files(".antt", ".rt", ".edit"):
        used.update(TOKEN.findall(text_of(path)))
    new = {}
    # definitions and parameters in lower camel case
    for name in sorted(used | everything):
        if CAMEL.fullmatch(name) and name not in kit:
            if name in facts:
                new[name] = name[0].upper() + name[1:]
            else:
                prime = len(name) - len(name.rstrip("'"))
                new[name] = "_".join(words_of(name.rstrip("'"))) + "'" * prime
    # lower-case facts of one word or of dashes
    for name in sorted(facts):
        if name not in new and name not in kit and re.fullmatch(r"[a-z][a-z0-9-]*'*", name):
            new[name] = "".join(w[0].upper() + w[1:] for w in name.split("-"))
    # facts with dashes
    for name in sorted(everything):
        if re.fullmatch(r"[A-Z][a-z]+(?:-[A-Z][a-z]+)+", name) and name not in kit:
            new[name] = name.replace("-", "")
    # definitions with dashes
    for name in sorted(specs - facts - kit):
        if re.fullmatch(r"[a-z0-9]+(?:[-_][a-z0-9]+)+'*", name):
            new[name] = name.replace("-", "_")
    known = {}
    for name in specs:
        spelled = new.get(name, name)
        if "_" in spelled:
            known[tuple(spelled.rstrip("'").split("_"))] = spelled.rstrip("'")
    longest = max(map(len, known))
    # lemmas
    for name in sorted(everything - specs - kit):
        if name in new or "-" not in name:
            continue
        parts, prime = name.rstrip("'").split("-"), "'" * (len(name) - len(name.rstrip("'")))
        words = []
        for part in parts:
            if CAMEL.fullmatch(part):
                words.append(("name", new.get(part, "_".join(words_of(part)))))
            elif re.fullmatch(r"[a-z0-9]+", part):
                words.append(("word", part))
            else:
                words.append(("name", part))
        out, i = [], 0
        while i < len(words):
            for n in range(min(longest, len(words) - i), 1, -1):
                run = words[i: i + n]
                if all(k == "word" for k, _ in run) and tuple(w for _, w in run) in known:
                    out.append(("name", known[tuple(w for _, w in run)]))
                    i += n
                    break
            else:
                out.append(words[i])
                i += 1
        spelled = out[0][1]
        for (before, _), (kind, word) in zip(out, out[1:]):
            spelled += ("_" if before == kind == "word" else "-") + word
        new[name] = spelled + prime
    # two names that fall together in one file: the lemma, or what is bound there alone, is told by its ending
    clashing = True
    while clashing:
        clashing = set()
        for path in files(".antt", ".rt"):
            here = {}
            for token in bound_in(path):
                here.setdefault(new.get(token, token), set()).add(token)
            for olds in here.values():
                if len(olds) > 1:
                    turning = [o for o in olds if o in new or o in everything - specs - kit]
                    last = sorted(turning, key=lambda o: (o in specs, o in everything, "-" not in o, o))[0]
                    clashing.add(last)
        for name in clashing:
            new[name] = new.get(name, name) + ("_of" if name in specs else "_lem" if name in everything else "_here")
    new.update(OTHERWISE)
    return {old: spelled for old, spelled in new.items() if old != spelled}, facts


# What a proof of one function says of a step, as `c.before.child-extent.ensures`: the step's name is Rattle's own.
STEP = re.compile(r"(?:^|[^\w'.-])c(?:\.[\w'-]+)*\.$")


def turned(text, new, of_function):
    def one(match):
        token = match.group(0)
        if of_function and token in new and STEP.search(text[max(0, match.start() - 300): match.start()]):
            return token
        return new.get(token, token)

    return TOKEN.sub(one, text)


def main(argv):
    new, facts = table()
    if "--table" in argv:
        for old, spelled in sorted(new.items()):
            print(f"{old}\t{spelled}")
        return
    for path in files(".antt", ".rt", ".edit"):
        text = text_of(path)
        of_function = path.endswith(".antt") and not is_law_file(path)
        own = IN_ONE_FILE.get(os.path.relpath(path, os.path.join(ROOT, "crates")), {})
        done = turned(text, {**new, **own}, of_function)
        if done != text:
            with open(path, "w", encoding="utf-8") as f:
                f.write(done)


if __name__ == "__main__":
    main(sys.argv[1:])
