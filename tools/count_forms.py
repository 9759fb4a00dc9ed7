#!/usr/bin/env python3
"""Counts the places of the older language's forms in crates/*/src; -v lists them.

The numbers are those of docs/DESIGN-PASS.md: 1 answers and kinds, 3 loops, 4 small forms, 5 parameters and facts that go together, 6 buffers, 7 steps. A line beginning `// stays:` says why the place below it stays.
"""
import glob
import re
import sys

LISTS = "-v" in sys.argv
FILES = {name: open(name, encoding="utf-8").read() for name in sorted(glob.glob("crates/*/src/**/*.rt", recursive=True))}


def line_of(text, at):
    return text.count("\n", 0, at) + 1


def block(text, at):
    """The text between the next brace and its partner."""
    start = text.index("{", at)
    depth = 0
    for i in range(start, len(text)):
        depth += {"{": 1, "}": -1}.get(text[i], 0)
        if depth == 0:
            return text[start + 1 : i]
    return text[start + 1 :]


def variants(body):
    body = re.sub(r"//.*", "", body)
    body = re.sub(r"#\[.*?\]", "", body)
    depth, current, found = 0, "", []
    for c in body + ",":
        depth += {"(": 1, "{": 1, ")": -1, "}": -1}.get(c, 0)
        if c == "," and depth == 0:
            if current.strip():
                found.append(current.strip())
            current = ""
        else:
            current += c
    return found


def each(pattern):
    for name, text in FILES.items():
        for m in re.finditer(pattern, text, re.M):
            yield name, text, m


def enums():
    for name, text, m in each(r"^(?:pub(?:\(crate\))? )?enum (\w+) \{"):
        parts = variants(block(text, m.start()))
        empty = [v for v in parts if not re.search(r"[({]", v)]
        if (len(empty) == 1 and len(parts) > 1) or any(v.split()[0] in ("Nothing", "Nobody") for v in empty):
            yield name, line_of(text, m.start()), m.group(1)


def flags():
    for name, text, m in each(r"^(?:pub(?:\(crate\))? )?struct (\w+)[^;{(]*\{"):
        body = block(text, m.start())
        fields = re.findall(r"^\s+(?:pub )?(\w+): ([^,]+),", body, re.M)
        told = [f for f, t in fields if t == "Admission" or (t == "bool" and f in ("found", "is_open", "sound"))]
        if told and len(fields) > 1:
            yield name, line_of(text, m.start()), m.group(1)


def kinds():
    for name, text, m in each(r"^\s+(?:pub )?(kind|state|status|number): u8,|^pub struct \w+\(pub u8\);|[(,]\s*(kind: u8|answer: u32)[,)]"):
        yield name, line_of(text, m.end() - 1), m.group(0).strip(" (,)\n")


def counted():
    for name, text, m in each(r"^\s+while ([^\n]*) \{$"):
        body = block(text, m.start())
        stepped = re.findall(r"\b(\w+) [+-]= 1;", body)
        if any(re.search(rf"\b{v}\b", m.group(1)) for v in stepped):
            yield name, line_of(text, m.start()), "while " + m.group(1)


def lines(pattern):
    for name, text, m in each(pattern):
        yield name, line_of(text, m.start()), m.group(0).strip()


COUNTS = [
    ("1 own enums of the shape of Option or Result", enums),
    ("1 structs of an answer or a flag and what it tells of", flags),
    ("1 numbers for kinds", kinds),
    ("3 loops that count by hand", counted),
    ("3 while loops in all", lambda: lines(r"^\s+while .*$")),
    ("4 arms that say true or false", lambda: lines(r"^\s+.*=> (?:true|false),$")),
    ("4 tests that return true or false", lambda: lines(r"^\s+return (?:true|false);$")),
    ("4 fields copied by name", lambda: lines(r"^\s+let (\w+) = (?:\w+\.)+\1;$")),
    ("4 empty values by hand", lambda: lines(r"\bfn (?:none|blank|empty|free|fresh|no_\w+)\(.*$")),
    ("4 numbers to and from enums", lambda: lines(r"\bfn (?:number|kind_of|answer_of)\(.*$")),
    ("5 contracts that bound a plan's counts", lambda: lines(r"^\s+(?:requires|ensures).*_count ≤ (?:32|8|4).*$")),
    ("5 contracts that bound an area's number", lambda: lines(r"^\s+requires.*area < 8.*$")),
    ("5 contracts that ask for room in a lent text", lambda: lines(r"^\s+requires.*\d+ ≤ (?:length out\.old|room \w+\.old).*$")),
    ("5 records and how many are in use, as parameters", lambda: lines(r"\w+: \[(?:\w+Record); \d+\],\s*(?:\w+_)?count: usize")),
    ("5 a lent text and its end, as parameters", lambda: lines(r"out: &mut \[u8\],\s*at: usize")),
    ("5 plan, areas and devices, as parameters", lambda: lines(r"plan: Plan,\s*areas: \[Area; 8\],\s*devices: \[Device; 4\]")),
    ("5 image and store, as parameters", lambda: lines(r"image: &mut \[u8\],\s*store: &mut \[u8\]")),
    ("6 a buffer and its length, as parameters", lambda: lines(r"\w+: &(?:mut )?\[u8\],\s*(?:n|count|filled): usize")),
    ("7 steps by number", lambda: lines(r"^\s+if (?:i|next|step) == \d+ \{$")),
    ("places that stay, with a reason", lambda: lines(r"^\s*// stays:.*$")),
]

for title, find in COUNTS:
    places = list(find())
    print(f"{len(places):4}  {title}")
    if LISTS:
        for name, line, what in places:
            print(f"        {name}:{line}: {what}"[:150])
