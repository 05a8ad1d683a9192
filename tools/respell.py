#!/usr/bin/env python3
"""Brings the repository's own definitions and lemmas to the spelling of today's Rattle: words in snake case.

usage: python3 tools/respell.py            at the top of the repository, once, after port.py
       python3 tools/respell.py --list     the names that it turns, and those that would fall together; writes nothing

It turns the names that specs/ and proofs/ declare (definitions, fields of records, constructors' arguments), wherever they are cited:
in .antt files, in the clauses of .rt files, in edits and in the pages of docs/ (between backticks). Functions of src/ keep their names.
"""

import os
import re
import sys

NAME = r"[a-z][A-Za-z0-9_'-]*"
DECLARED = re.compile(rf"^\s*(?:(?:pub|abbrev|unfoldable|private)\s+)*({NAME}(?:\s+{NAME})*)\s*:(?!:)", re.M)
BOUND = re.compile(r"[({]([a-z][\w'-]*(?:\s+[a-z][\w'-]*)*)\s*:(?!:)")
WORD = re.compile(r"(?<![\w'-])[A-Za-z_][\w'-]*")
CAMEL = re.compile(r"^[a-z][A-Za-z0-9_']*[A-Z]")


def files(ends, below="crates"):
    for folder, dirs, names in os.walk(below):
        dirs[:] = sorted(d for d in dirs if d not in ("out", ".git", "target"))
        for f in sorted(names):
            if f.endswith(ends):
                yield os.path.join(folder, f)


def read(path):
    with open(path, encoding="utf-8") as f:
        return f.read()


def snake(word):
    return re.sub(r"(?<=[a-z0-9])([A-Z])", lambda m: "_" + m.group(1).lower(), word)


def part(word, own):
    """A name is parts joined by hyphens: each part that is a name of ours in camel case is turned."""
    return "-".join(snake(p) if p in own else p for p in word.split("-"))


# Before the rest: names that would fall together with another of their file, a lemma named after a word that std calls otherwise, and a type in lower case.
FIRST = {
    "crates/cases/proofs/UniqueCells.antt": {"no_name": "no_name-zero"},
    "crates/cases/proofs/Passing.antt": {"is_open": "open-passed"},
    "crates/inbox/proofs/Groups.antt": {"from": "From"},
    "": {"getD-tab": "get_or-tab", "getD-at'": "get_or-at'"},
}


def without_comment(text):
    return re.sub(r"--.*", "", text)


def names():
    own, words = set(), set()
    for p in files((".antt",)):
        t = without_comment(read(p))
        words |= set(WORD.findall(t))
        for m in list(DECLARED.finditer(t)) + list(BOUND.finditer(t)):
            for w in m.group(1).split():
                own |= {x for x in w.split("-") if CAMEL.match(x)}
    for p in files((".rt",)):
        words |= set(WORD.findall(read(p)))
    return own, words


def main(argv):
    own, words = names()
    if "--list" in argv:
        made = {}
        for w in sorted(own):
            made.setdefault(snake(w), []).append(w)
            print(w, snake(w), "ALREADY THERE" if snake(w) in words else "")
        for k, v in made.items():
            if len(v) > 1:
                print("TOGETHER", k, v)
        return 0
    n = 0
    for p in list(files((".antt", ".rt", ".edit"))) + list(files((".md",), "docs")) + ["README.md"]:
        t = read(p)
        first = FIRST[""] | FIRST.get(p, {})
        t0, t = t, WORD.sub(lambda m: first.get(m.group(0), m.group(0)), t) if p.endswith(".antt") else t
        turn = lambda s: WORD.sub(lambda m: part(m.group(0), own), s)
        u = re.sub(r"`[^`\n]+`", lambda m: turn(m.group(0)), t) if p.endswith(".md") else turn(t)
        if u != t0:
            n += 1
            with open(p, "w", encoding="utf-8") as f:
                f.write(u)
    print(f"respell: {len(own)} names, {n} files")
    return 0


if __name__ == "__main__":
    raise SystemExit(main(sys.argv[1:]))
