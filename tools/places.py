#!/usr/bin/env python3
"""Counts, in the sources of all crates, the places that docs/DESIGN-PASS.md speaks of.

    tools/places.py            the counts
    tools/places.py -v         .. and each place
    tools/places.py -v 3       .. of one point
    tools/places.py DIR        of another checkout
"""
import os
import re
import sys
from collections import defaultdict

INTS = r"(?:u8|u16|u32|u64|usize|i32|i64)"


def sources(top):
    for crate in sorted(os.listdir(os.path.join(top, "crates"))):
        folder = os.path.join(top, "crates", crate, "src")
        for where, _, files in sorted(os.walk(folder)):
            for name in sorted(files):
                if name.endswith(".rt"):
                    path = os.path.join(where, name)
                    yield crate, os.path.relpath(path, top), open(path, encoding="utf-8").read()


def line_of(text, at):
    return text.count("\n", 0, at) + 1


def functions(text):
    """Each function: its line, name, the comment above it, the head up to the body, and the body."""
    for m in re.finditer(r"^[ ]*(?:pub(?:\([a-z]+\))? )?(?:extern \"C\" )?fn (\w+)", text, re.M):
        brace = None
        depth = 0
        i = m.end()
        # the body is the brace that stands alone on a line, or ends the head's line
        for b in re.finditer(r"\{", text[i:]):
            at = i + b.start()
            before = text[text.rfind("\n", 0, at) + 1 : at]
            if before.strip() == "" or (")" in before and "ensures" not in before and "requires" not in before):
                brace = at
                break
        if brace is None:
            continue
        end = brace
        depth = 0
        for j in range(brace, len(text)):
            if text[j] == "{":
                depth += 1
            elif text[j] == "}":
                depth -= 1
                if depth == 0:
                    end = j + 1
                    break
        lines = text[: m.start()].split("\n")
        comment = []
        for line in reversed(lines[:-1] if lines and lines[-1] == "" else lines):
            if line.strip().startswith(("//", "#[")):
                comment.append(line.strip())
            else:
                break
        yield line_of(text, m.start()), m.group(1), " ".join(reversed(comment)), text[m.start() : brace], text[brace:end]


def parameters(head):
    head = re.sub(r"\b(?:requires|ensures)\b.*", "", head, flags=re.S)
    m = re.search(r"\((.*)\)", head, re.S)
    if not m:
        return []
    parts = [p.strip() for p in m.group(1).replace("\n", " ").split(", ")]
    return [p.rstrip(",") for p in parts if ":" in p]


def point1(top):
    for crate, path, text in sources(top):
        for m in re.finditer(r"^(?:pub )?enum (\w+)[^{]*\{(.*?)^\}", text, re.M | re.S):
            if re.search(r"^\s+(?:Refused|Accepted|Is|Of|None)\b", m.group(2), re.M):
                yield path, line_of(text, m.start()), f"enum {m.group(1)}"
        for m in re.finditer(r"^(?:pub )?struct (\w+)[^{;]*\{(.*?)^\}", text, re.M | re.S):
            if re.search(r"^\s+(?:pub )?(?:good|stop): bool", m.group(2), re.M):
                yield path, line_of(text, m.start()), f"struct {m.group(1)}: a flag beside values"
        for at, name, comment, head, body in functions(text):
            if re.search(r"\bkind: (?:usize|u8)\b", head):
                yield path, at, f"fn {name}: a number for a kind"
            elif re.search(r"or `[nm]`|0 where there is none|; else 0|is none\b|where it is none|empty where", comment) and re.search(r"-> (?:usize|u8|&\[u8\])", head):
                yield path, at, f"fn {name}: a number or an empty part for none"
        for m in re.finditer(r"(?:^(?:pub )?const [A-Z_]+: usize = \d+;\n\n?){3,}", text, re.M):
            yield path, line_of(text, m.start()), f"{m.group(0).count('const')} constants for kinds"


def tokens(head, body, name):
    text = re.sub(r"//[^\n]*", "", head + body)
    text = re.sub(r"\b(?:requires|ensures)\b\*?(?: \w+)? \{[^\n]*\}", "", text)
    text = re.sub(rf"\b{name}\b", "F", text)
    text = re.sub(rf"_{INTS}\b", "_T", text)
    text = re.sub(rf"\b{INTS}\b", "T", text)
    text = re.sub(r"\b[A-Z][A-Z_0-9]+\b|\b\d[\d_xA-Fa-f]*(?:T)?\b", "N", text)
    return " ".join(re.findall(r"\w+|[^\w\s]", text))


def point2(top):
    groups = defaultdict(list)
    named = []
    for crate, path, text in sources(top):
        for at, name, comment, head, body in functions(text):
            if re.search(rf"_{INTS}$", name):
                named.append((path, at, f"fn {name}: the type in the name"))
            elif len(tokens("", body, name).split()) > 12:
                groups[tokens(head, body, name)].append((path, at, f"fn {name}"))
    yield from named
    for places in groups.values():
        if len(places) > 1:
            for path, at, what in places:
                yield path, at, f"{what}: one of {len(places)} alike"


def point3(top):
    for crate, path, text in sources(top):
        for m in re.finditer(r"^\s*while .*$", text, re.M):
            yield path, line_of(text, m.start() + 1), m.group(0).strip()


def point4(top):
    names = r"number|value|try_from|decode|encode|listener_of|connection_of|direction_number|plain|listening|connected|signed|bits|either|least|say\w*|policy|number8|number32|hex\w*|wide"
    for crate, path, text in sources(top):
        for at, name, comment, head, body in functions(text):
            if re.fullmatch(names, name) and not re.search(r"^\s*(?:self as|answer\.)", body):
                yield path, at, f"fn {name}"


def point5(top):
    facts = defaultdict(list)
    travel = []
    for crate, path, text in sources(top):
        for at, name, comment, head, body in functions(text):
            seen = set()
            for clause in re.findall(r"requires(?: \w+)? \{ (.*) \}", head):
                for fact in clause.split(" × "):
                    fact = re.sub(r"\.(?:now|old)\b", "", fact).strip("() ")
                    seen.add(fact)
            for fact in seen:
                facts[fact].append((path, at, name))
            taken = [p for p in parameters(head) if re.match(r"(?:words|bytes|tokens|wakes|releases|n|c): ", p)]
            if len(taken) >= 3:
                travel.append((path, at, f"fn {name}: {len(taken)} of words, bytes, tokens, wakes, releases, n, c"))
    for fact, places in sorted(facts.items()):
        if len(places) >= 3:
            for path, at, name in places:
                yield path, at, f"fn {name}: the fact `{fact}`, one of {len(places)}"
    yield from travel


def point6(top):
    for crate, path, text in sources(top):
        for at, name, comment, head, body in functions(text):
            here = parameters(head)
            joined = "; ".join(here)
            if re.search(r"out: &mut \[u8\]", joined) and re.search(r"\bat: usize", joined):
                yield path, at, f"fn {name}: a buffer and how far it is filled"
            elif re.search(r"held: &mut \[u64\]", joined) and re.search(r"count: usize", joined):
                yield path, at, f"fn {name}: a list and its length"
        for m in re.finditer(r"(?:=|^)\s*\[[^\];]+; \d+\]", text, re.M):
            yield path, line_of(text, m.start() + 1), f"an array of a fixed length: {m.group(0).strip('= ')}"


def point7(top):
    for crate, path, text in sources(top):
        for m in re.finditer(r"match (?:kind|group\(kind\)|table::admission\(.*) ?", text):
            yield path, line_of(text, m.start()), m.group(0).strip()
        for m in re.finditer(r"if (?:kind|NAMES|CALLS) .*\{", text):
            yield path, line_of(text, m.start()), m.group(0).strip()


def point8(top):
    for crate in sorted(os.listdir(os.path.join(top, "crates"))):
        folder = os.path.join(top, "crates", crate, "proofs")
        for where, _, files in sorted(os.walk(folder)):
            for name in sorted(files):
                path = os.path.join(where, name)
                if not name.endswith(".antt") or name == "Lib.antt":
                    continue
                text = open(path, encoding="utf-8").read()
                if name == "Answers.antt":
                    for m in re.finditer(r"^pub (\S+) : goal\.", text, re.M):
                        yield os.path.relpath(path, top), line_of(text, m.start()), f"answer {m.group(1)}"
                elif where == folder:
                    for m in re.finditer(r"^ *(?:pub )?([^\s:]+) : ", text, re.M):
                        if m.group(1) not in ("use",):
                            yield os.path.relpath(path, top), line_of(text, m.start()), f"lemma {m.group(1)}"


POINTS = [
    (point1, "own Option and Result, flags beside values, numbers for kinds"),
    (point2, "functions that differ in a type, a size or a constant"),
    (point3, "loops with a condition (`while`)"),
    (point4, "equality, order, copying, conversion and printing by hand"),
    (point5, "facts of three or more contracts, parameters that travel together"),
    (point6, "buffers with a length beside, arrays of a fixed length"),
    (point7, "switches on which step to run"),
    (point8, "answers and lemmas"),
]


def main():
    words = sys.argv[1:]
    verbose = "-v" in words
    words = [w for w in words if w != "-v"]
    only = [int(w) for w in words if w.isdigit()]
    tops = [w for w in words if not w.isdigit()]
    top = tops[0] if tops else os.path.join(os.path.dirname(os.path.abspath(__file__)), "..")
    for k, (point, what) in enumerate(POINTS, 1):
        if only and k not in only:
            continue
        places = list(point(top))
        print(f"{k}  {len(places):5}  {what}")
        if verbose:
            for path, at, name in places:
                print(f"       {path}:{at}: {name}")


if __name__ == "__main__":
    main()
