#!/usr/bin/env python3
"""Spells the project's definitions and lemmas in snake case, by names.tsv beside this file (the old name, a tab, the new one).

usage: python3 tools/spell_names.py      at the top of the repository, once, after the toolchain's own script

Turned: words of code in specs/, proofs/ and the contracts of src/, and of the edits in must-fail/; names in camel case in their comments; words in
backticks in comments and documents. Strings, inputs, outputs and names of src/ stay. Two fields, `above-bounded` and `image-reach`, are printed by the
audit program as the theorems that its figures rest on, so they are in no row. A lemma whose new name a definition has ends in `_lem`; a definition whose
new name a field or parameter of src/ has ends in `_of`.
"""

import os
import re

HERE = os.path.dirname(os.path.realpath(__file__))
TOP = os.path.dirname(HERE)
WORD = r'[^\s(){}.;:,@"«»`]+'
# Names that the toolchain's script had turned already, and that fall together with a definition there.
OVER = {
    "crates/rules/specs/laws/JobLaws.antt": {"goes_on": "goes_on_lem"},
    "crates/requests/specs/Requests.antt": {"goes_on": "goes_on_lem"},
    "crates/lines/specs/laws/NumberLaws.antt": {"digit_at": "digit_at_lem"},
}
STRING = r'"(?:\\.|[^"\\\n])*"'


def rows():
    with open(os.path.join(HERE, "names.tsv"), encoding="utf-8") as f:
        return dict(line.rstrip("\n").split("\t") for line in f)


def turn(text, names):
    return re.sub(WORD, lambda m: names.get(m[0], m[0]), text)


def turn_comment(text, names):
    camel = {old: new for old, new in names.items() if "-" not in old and "_" not in old}
    parts = re.split(r"(`[^`]*`)", text)
    return "".join(turn(p, names if i % 2 else camel) for i, p in enumerate(parts))


def turn_code(text, names, mark):
    def one(m):
        if m[0].startswith(mark):
            return turn_comment(m[0], names)
        return m[0] if m[0].startswith('"') else turn(m[0], names)

    return re.sub(rf'{STRING}|(?<![^\s(){{}}.;,]){re.escape(mark)}[^\n]*|[^\s"]+|"', one, text)


def turn_edit(text, names):
    lines = text.split("\n")
    return "\n".join(turn_code(s, names, "#") if s.startswith(("old:", "new:")) else turn_comment(s, names) for s in lines)


def turn_page(text, names):
    return re.sub(r"(`+)[^`]+\1", lambda m: turn(m[0], names), text)


def turned(path, text, names):
    names = names | OVER.get(path, {})
    if path.endswith(".antt"):
        return turn_code(text, names, "--")
    if path.endswith(".rt"):
        return turn_code(text, names, "//")
    if path.endswith(".edit"):
        return turn_edit(text, names)
    return turn_page(text, names)


def main():
    names = rows()
    count = 0
    for folder, dirs, files in os.walk(TOP):
        dirs[:] = [d for d in dirs if d not in ("out", ".git", "target")]
        for name in files:
            path = os.path.relpath(os.path.join(folder, name), TOP)
            if not name.endswith((".antt", ".rt", ".edit", ".md")) or not path.startswith(("crates/", "docs/", "README.md")):
                continue
            with open(os.path.join(folder, name), encoding="utf-8") as f:
                old = f.read()
            new = turned(path, old, names)
            if new != old:
                count += 1
                with open(os.path.join(folder, name), "w", encoding="utf-8") as f:
                    f.write(new)
    print(f"spell_names: {count} files changed")


if __name__ == "__main__":
    main()
