#!/usr/bin/env python3
"""Brings the repository's own definitions and lemmas to the spelling of today's Rattle: words in snake case.

usage: python3 tools/respell_names.py        once, at the top, after the kit's own script of the port

It renames what specs/ and the lemma files of proofs/ declare with a hyphen or a capital inside (`last-station` becomes
`last_station`, `valueAfter` becomes `value_after`, the type `Closed-below` becomes `ClosedBelow`), in every .antt file and
in the clauses of every .rt file, and nowhere else: no string, no comment but for a name in backquotes, no function of src/,
and no name that Rattle makes (those stand only in the folder of a function's proof, and keep their hyphens). It stops
where two names would fall together.
"""

import glob
import os
import re
import sys

DECLARED = re.compile(r"^\s*(?:(?:abbrev|unfoldable|pub|data|record|mutual)\s+)*([A-Za-z_][^\s:(){}.,;]*)\s*(?:[{(][^=]*)?:\s")
WORD = r"\w\-'"


def of_a_function(path):
    parts = path.split("/")
    return parts[2] == "proofs" and len(parts) > 4


def new_name(name):
    if name[0].isupper():
        return "".join(part[0].upper() + part[1:] for part in name.split("-"))
    name = re.sub(r"(?<=[a-z0-9])([A-Z])", lambda m: "_" + m.group(1).lower(), name)
    return name.replace("-", "_")


def names(paths):
    declared, new = set(), {}
    for path in paths:
        if of_a_function(path):
            continue
        for line in open(path, encoding="utf-8"):
            found = DECLARED.match(line)
            if found:
                declared.add(found.group(1))
    for name in sorted(declared):
        if new_name(name) != name:
            new[name] = new_name(name)
    meeting = [n for n in new if new[n] in declared or list(new.values()).count(new[n]) > 1]
    if meeting:
        sys.exit("these names would fall together with others: " + ", ".join(meeting))
    return new


def respell(text, new, pattern):
    """In code, and in comments where a name stands in backquotes; strings stay."""

    def part(piece):
        return pattern.sub(lambda m: new[m.group(1)], piece)

    out = []
    for line in text.split("\n"):
        at = 0
        for m in re.finditer(r'"(?:[^"\\]|\\.)*"|(?:(?<=\s)|^)(?:--|//)(?=\s|$).*$', line):
            out.append(part(line[at : m.start()]))
            piece = m.group(0)
            if not piece.startswith('"'):
                piece = re.sub(r"`[^`]*`", lambda q: part(q.group(0)), piece)
            out.append(piece)
            at = m.end()
        out.append(part(line[at:]) + "\n")
    return "".join(out)[:-1]


def main():
    antt = sorted(glob.glob("crates/*/specs/**/*.antt", recursive=True) + glob.glob("crates/*/proofs/**/*.antt", recursive=True))
    new = names(antt)
    longest_first = "|".join(re.escape(n) for n in sorted(new, key=len, reverse=True))
    pattern = re.compile(rf"(?<![{WORD}·])({longest_first})(?![{WORD}·])")
    changed = 0
    for path in antt + sorted(glob.glob("crates/*/src/**/*.rt", recursive=True)):
        with open(path, encoding="utf-8") as f:
            old = f.read()
        text = respell(old, new, pattern)
        if text != old:
            with open(path, "w", encoding="utf-8") as f:
                f.write(text)
            changed += 1
    print(f"{len(new)} names, {changed} files")


if __name__ == "__main__":
    os.chdir(os.path.join(os.path.dirname(os.path.abspath(__file__)), ".."))
    main()
