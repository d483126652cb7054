#!/usr/bin/env python3
"""Lists the places in crates/*/src where an older form may stand: python3 tools/places.py [FOLDER].

One heading for each point of docs/DESIGN-PASS.md, then a line for each place found. Tests are
passed over. A line is a place to look at, and no verdict: the page says what each of them is.
"""
import re
import sys
from collections import defaultdict
from pathlib import Path

LINES = {
    "1 own enums": r"\benum [A-Z]\w*",
    "1 numbers for kinds and refusals": r"=> [0-9]+,$|^\s*\(?[0-9]+(, ([0-9]+|_|\w+))?\)? => |^(pub )?const [A-Z_]+: u(8|16) = [0-9]+;$|^\s*[A-Z]\w+ = [0-9]+,$",
    "1 answers and errors handed on by hand": r"(Ok|Err|Some)\((\(\)|_|\w+)\) => (return )?(Ok|Err|Some|None)\b|None => (return )?(Ok|Err|None)\b|return Err\(e\)|return None;$|unreachable",
    "1 sentinels": r"\bUNUSED\b|NoSuchRequest,?$",
    "3 loops": r"^\s*('\w+: )?(for .* in |while |loop\b)",
    "4 impls and conversions by hand": r"^\s*impl.* (From|TryFrom|FromStr|PartialEq|Eq|PartialOrd|Ord|Order|Clone|Default|Display)\b.* for |^\s*(pub )?fn (number|code|value|a|b|of|failure|service|subtype|kind_number|is_below|keyword_of|turn_of|turn_in)\(|u16::from\(\*\w+\) \* 256",
    "6 buffers, arrays, indices": r"\[u8; ?\w+\]|^\s*(pub(\(crate\))? )?(len|used|size|written|start|at|place|rank): (u8|usize)",
    "7 switches": r"match \*?(self|scope|kind|call|role|keyword|outcome|answer\.outcome|note\.reply|slot|pending)\b|\bdyn\b|impl Fn|: Fn",
}
FN = re.compile(r"^\s*(?:pub(?:\(crate\))? )?(?:extern \"C\" )?fn (\w+)")


def source(path):
    text = path.read_text()
    cut = text.find("#[cfg(test)]")
    return (text if cut < 0 else text[:cut]).splitlines()


def functions(lines):
    """Each function's name, its parameters, and its clauses without their names."""
    name, head, found = None, "", []
    for line in lines:
        start = FN.match(line)
        if start:
            name, head = start.group(1), ""
        if name:
            head += " " + line.strip()
            if line.rstrip().endswith("{") and "ensures" not in line and "requires" not in line or line.strip().endswith(";"):
                signature = re.split(r" (?:requires|ensures)\b", head)[0]
                inside = signature[signature.find("(") + 1 : signature.rfind(")")]
                parameters = re.findall(r"(\w+): ([^,()]+)", inside)
                clauses = re.findall(r"(requires|ensures)\*? ?(?:\w+ )?\{ (.*?) \}(?= requires| ensures| \{|;|$)", head)
                found.append((name, parameters, clauses))
                name = None
    return found


def main():
    root = Path(sys.argv[1] if len(sys.argv) > 1 else ".")
    files = sorted(root.glob("crates/*/src/*.rt"))
    for point, pattern in LINES.items():
        hits = [(f, n, line) for f in files for n, line in enumerate(source(f), 1) if re.search(pattern, line) and not line.lstrip().startswith("//") and "ghost" not in line]
        print(f"## {point}: {len(hits)}")
        for f, n, line in hits:
            print(f"  {f.relative_to(root / 'crates')}:{n}: {line.strip()[:110]}")
    pairs, facts = defaultdict(set), defaultdict(set)
    for f in files:
        for name, parameters, clauses in functions(source(f)):
            where = f"{f.relative_to(root / 'crates').parts[0]}::{name}"
            named = [p for p, t in parameters if p not in ("self", "f")]
            for i, p in enumerate(named):
                for q in named[i + 1 :]:
                    pairs[(f.relative_to(root / "crates").parts[0], p, q)].add(where)
            for kind, fact in clauses:
                for part in re.split(r" × ", fact):
                    facts[(f.relative_to(root / "crates").parts[0], part.strip("() "))].add(where)
    for title, found in (("5 parameters of three functions or more of a crate", pairs), ("5 facts in the clauses of three functions or more of a crate", facts)):
        many = sorted((key, where) for key, where in found.items() if len(where) >= 3)
        print(f"## {title}: {len(many)}")
        for key, where in many:
            print(f"  {', '.join(key)}: {', '.join(sorted(where))}")


main()
