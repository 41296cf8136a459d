#!/usr/bin/env python3
"""Spells the repository's own definitions and lemmas as this Rattle does: words in snake case, facts in camel case.

usage: python3 tools/port_names.py       at the top of the repository, once, right after port.py

Functions, types and constants of src/ keep their names. Where a definition gets the name that a lemma of the same file has, the
lemma gets `_lem` after it.
"""

import collections
import os
import re
import sys

ROOT = sys.argv[1] if len(sys.argv) > 1 else "."

# A word: what antt reads as one name, dashes and primes included.
WORD = re.compile(r"[A-Za-z_][A-Za-z_0-9'-]*[A-Za-z_0-9']|[A-Za-z_]")
DECLARED = re.compile(r"^\s*(?:(?:abbrev|unfoldable|pub|opaque)\s+)*(?:(record|data|module|syntax|ruleset)\s+)?([^\s:(){},;]+)\s*(?=[:({]|\s:)")
FACT = re.compile(r"^\s*(?:abbrev |unfoldable |pub )+([a-z]\w*)\s*:.*Type 0\s*$")

# Lemmas whose definition gets their name.
LEMMAS = ["no_keys", "only_one", "step_by", "too_long", "value_len", "in_order"]

# Names of arguments and of clauses that no declaration of their own shows.
ARGUMENTS = ["iEnd", "jEnd", "sourceTimes", "sourceValues", "isSame", "isSmall", "blockTimes", "blockValues", "valuesFew", "olderFirst", "newerFirst", "tailSize", "inRange"]


def snake(name):
    parts = []
    for p in name.split("-"):
        if re.match(r"[a-z]", p):
            p = re.sub(r"([a-z0-9])([A-Z])", lambda m: m.group(1) + "_" + m.group(2).lower(), p)
        parts.append(p)
    return "-".join(parts)


def texts():
    for folder, dirs, files in os.walk(ROOT):
        dirs[:] = sorted(d for d in dirs if d not in ("out", ".git", "target"))
        for f in sorted(files):
            path = os.path.join(folder, f)
            inside = os.path.relpath(path, ROOT)
            if inside.startswith("crates" + os.sep) and f.endswith((".rt", ".antt", ".edit")):
                yield path
            elif inside in ("README.md", "CHANGELOG.md") or inside.startswith("docs" + os.sep) and f.endswith(".md") and f != "PORT.md":
                yield path


def read(path):
    with open(path, encoding="utf-8") as f:
        return f.read()


def main():
    names, facts = set(), set()
    for path in texts():
        if path.endswith(".antt"):
            for line in read(path).split("\n"):
                if line.lstrip().startswith("--") or line.startswith("use "):
                    continue
                m = DECLARED.match(line)
                if m and any(re.match(r"[a-z].*[a-z0-9][A-Z]", p) for p in m.group(2).split("-")):
                    names.add(m.group(2))
                m = FACT.match(line)
                if m:
                    facts.add(m.group(1))
    facts -= {"nothing", "fault"}
    turned = {n: snake(n) for n in names | set(ARGUMENTS)}
    turned.update({n: n[0].upper() + n[1:] for n in facts})
    gone = collections.Counter(turned.values())
    assert all(k == 1 for k in gone.values()), [n for n in gone if gone[n] > 1]
    lemmas = {n: n + "_lem" for n in LEMMAS}
    for path in texts():
        text = read(path)
        new = text
        if path.endswith(".antt"):
            new = WORD.sub(lambda m: lemmas.get(m.group(0), m.group(0)), new)
        new = WORD.sub(lambda m: turned.get(m.group(0), m.group(0)), new)
        if re.search(r"crates/theorems/(specs|proofs|must-fail)/", path) and not path.endswith(("/Blocks.antt", "/Reading.antt")):
            lines = [l if l.lstrip().startswith("--") and "Fault, fault" not in l else re.sub(r"\b(nothing|fault)\b(?!\.)", lambda m: m.group(1).capitalize(), l) for l in new.split("\n")]
            new = "\n".join(lines)
        if new != text:
            with open(path, "w", encoding="utf-8") as f:
                f.write(new)
    for n in sorted(turned):
        print(n, turned[n])


main()
