#!/usr/bin/env python3
"""Brings the repository's own definitions and lemmas to the spelling of today's Rattle: plain words are joined by `_`.

usage: python3 tools/respell_dashes.py            at the top of the repository, after tools/respell.py
       python3 tools/respell_dashes.py --list     the names that it turns; writes nothing

A dash joins two names, as in `length-tab` or `close_all-once`: it stays beside a part that is itself a definition of ours or of std. In
every other name that specs/ and proofs/ declare (definitions, fields of records, lemmas, parameters) it becomes `_`. Names that Rattle
makes (`loop-i-init`, `c.load-slot`) stay.
"""

import os
import re
import sys

from respell import BOUND, WORD, files, read, without_comment

DECLARED = re.compile(r"^\s*(?:(?:pub|abbrev|unfoldable|private)\s+)*([a-z_][\w'-]*(?:\s+[a-z_][\w'-]*)*)\s*:(?!:)", re.M)
DEFINED = re.compile(r"^(?:(?:pub|abbrev|unfoldable)\s+)+([\w'-]+)\s*:", re.M)
LET = re.compile(r"(?<![\w'-])let ([a-z][\w'-]*)\s*[:=]")
STD = {"length", "take", "drop", "append", "map", "set", "sets", "get_or", "tab", "eqb", "leb", "ltb", "min", "replicate", "paste", "nil", "cons", "suc", "zero", "mem"}


def made(path):
    """A file of a function's own folder: its declarations have names that Rattle makes."""
    return os.path.basename(path) in ("Answers.antt", "Invariants.antt", "Proof.antt")


USED = re.compile(r"^\s*use ([\w.'◌-]+)\.\{([^}]*)\}", re.M)


def names():
    own, defined, taken = set(), set(STD), set()
    crates = set(os.listdir("crates"))
    for p in files((".antt",)):
        t = without_comment(read(p))
        # what another library declares keeps its name
        for m in USED.finditer(t):
            part = m.group(1).split(".")
            if part[0] != "Rattle" or len(part) < 2 or part[1] not in crates:
                taken |= {w.strip() for w in m.group(2).split(",")}
        if made(p):
            taken |= set(re.findall(r"(?<![\w'-])(?:c|l|goal|tie)\.([\w'-]+)", t))
            continue
        for m in list(DECLARED.finditer(t)) + list(BOUND.finditer(t)):
            own |= {w for w in m.group(1).split() if "-" in w}
        own |= {m.group(1) for m in LET.finditer(t) if "-" in m.group(1)}
        if "/specs/" in p:
            defined |= {m.group(1) for m in DEFINED.finditer(t)}
    return own - taken, defined


def turned(word, defined):
    parts = word.split("-")
    out = parts[0]
    for a, b in zip(parts, parts[1:]):
        out += ("-" if ("_" in a and a in defined) or ("_" in b and b in defined) or a in STD or b in STD else "_") + b
    return out


def main(argv):
    own, defined = names()
    to = {w: turned(w, defined) for w in own}
    to = {w: n for w, n in to.items() if w != n}
    clash = {}
    for p in list(files((".antt",))):
        t = without_comment(read(p))
        words = set(WORD.findall(t))
        for w in words & set(to):
            if to[w] in words:
                clash.setdefault((w, to[w]), []).append(p)
    if "--list" in argv:
        for w in sorted(to):
            print(w, to[w])
        for k, v in sorted(clash.items()):
            print("TOGETHER", k, v)
        return 0
    for (w, n) in clash:
        to.pop(w, None)
    n = 0
    for p in list(files((".antt", ".rt", ".edit"))) + list(files((".md",), "docs")) + ["README.md"]:
        if os.path.basename(p).startswith("PORT"):
            continue
        t = read(p)
        turn = lambda s: WORD.sub(lambda m: to.get(m.group(0), m.group(0)), s)
        quoted = lambda s: re.sub(r"`[^`\n]+`", lambda m: turn(m.group(0)), s)
        if p.endswith(".md"):
            u = quoted(t)
        elif p.endswith(".antt"):
            u = re.sub(r"(?m)^(.*?)(--.*)?$", lambda m: turn(m.group(1)) + quoted(m.group(2) or ""), t)
        elif p.endswith(".rt"):
            u = re.sub(r"(?m)^(?!\s*//)[^\"\n]*$", lambda m: turn(m.group(0)), t)
        else:
            u = turn(t)
        if u != t:
            n += 1
            with open(p, "w", encoding="utf-8") as f:
                f.write(u)
    print(f"respell_dashes: {len(to)} names, {n} files")
    return 0


if __name__ == "__main__":
    raise SystemExit(main(sys.argv[1:]))
