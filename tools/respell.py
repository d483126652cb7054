#!/usr/bin/env python3
"""Respells the repository's own definitions and lemmas after the kit's port script: words in snake case, types and
modules in camel case, a dash only where it joins two names. Run once, at the top, after the kit's port.py.

usage: python3 tools/respell.py [--names]      (--names: print old and new names, and write nothing)

The names are read from the definitions in specs/ and proofs/. Functions of src/, exported names, strings, inputs and
outputs keep theirs, since no word of the list stands there; a new name that stands in the repository already is told.
"""

import os
import re
import sys

# A lemma keeps its dash where both of its halves are names, the outer call first.
JOINED = {
    "bit-zeros", "length-encode", "length-flagged", "length-report", "length-round", "length-unwords", "length-words",
    "numbered-append", "parse-encode", "take-over", "take-set",
}
# Not by the rule: a word is called otherwise now, or two names would fall together.
BY_HAND = {"getD-zeros": "get_or-zeros", "is-checked": "is_checked-with_check"}

DEFINED = re.compile(r"(?m)^\s*(?:(?:abbrev|pub|unfoldable|private) )*([^\s:(){}]+) : (.*)$")
RECORD = re.compile(r"(?m)^\s*(?:(?:abbrev|pub|unfoldable) )*(?:record|data) ([^\s:(){}]+)")
PART = r"\w'\u2032\u2080-\u2089\-"


def files(kinds):
    for top in ("crates", "docs"):
        for folder, dirs, names in os.walk(top):
            dirs[:] = sorted(d for d in dirs if d != "out")
            for name in sorted(names):
                if name.endswith(kinds):
                    yield os.path.join(folder, name)
    if ".md" in kinds:
        yield "README.md"


def text(path):
    with open(path, encoding="utf-8") as f:
        return f.read()


def defined():
    """The names of definitions and lemmas, but for those that the check itself gives: goals, invariants, measures."""
    found = set()
    for path in files((".antt",)):
        t = text(path)
        found |= {m[1] for m in DEFINED.finditer(t) if not m[2].startswith(("goal.", "given."))}
        found |= set(RECORD.findall(t))
    return found


def respelled(name):
    if name in BY_HAND:
        return BY_HAND[name]
    if name in JOINED or name in BY_HAND.values() or not name[0].islower():
        return name
    new = name.replace("-", "_")
    return re.sub(r"(?<=[a-z0-9])[A-Z]", lambda m: "_" + m[0].lower(), new)


def main(words):
    names = {n: respelled(n) for n in sorted(defined())}
    names = {n: new for n, new in names.items() if n != new}
    one = re.compile(rf"(?<![{PART}])(?:" + "|".join(re.escape(n) for n in sorted(names, key=len, reverse=True)) + rf")(?![{PART}])")
    # a step of the code, as c.is-checked in an answer, is the check's name
    one = re.compile(r"(?<!\bc\.)" + one.pattern)
    texts = {p: text(p) for p in files((".antt", ".rt", ".edit", ".md"))}
    stands = set()
    for t in texts.values():
        stands |= set(re.findall(rf"[{PART}]+", t))
    for n, new in names.items():
        print(f"{n} -> {new}" + ("   stands already" if new in stands else ""))
    if "--names" in words:
        return 0
    for path, t in texts.items():
        turned = one.sub(lambda m: names[m[0]], t)
        if turned != t:
            with open(path, "w", encoding="utf-8") as f:
                f.write(turned)
    return 0


if __name__ == "__main__":
    raise SystemExit(main(sys.argv[1:]))
