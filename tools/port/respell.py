#!/usr/bin/env python3
"""Brings this repository's own definitions and lemmas to today's spelling: words in snake case, facts in camel case.

usage: python3 tools/port/respell.py [--list]     at the top of the repository, once, right after the kit's port.py

What is respelled is what the specs/ and proofs/ of the crates define themselves: functions, lemmas, labels and fields that
are written like `clientOf`, and functions and labels of specs/ that are written like `fault-of`. Constructors, types,
modules and whatever comes from src/ keep their names. It reports names that would fall together.
"""
import glob
import re
import sys

DEFINED = re.compile(r"^\s*(?:(?:abbrev|unfoldable|pub|opaque)\s+)*([^\s:(){},;.]+)\s*(?=[:({])")
FIELD = re.compile(r"(?:^|[{(;,]\s*)(?:pub\s+)?([a-z][^\s:(){},;.]*)\s*:\s")
CAMEL = re.compile(r"^[a-z][A-Za-z0-9_']*[A-Z]")
TOKEN = re.compile(r"[^\s(){}\[\],;.:\"`|]+")
# a fact is spelled as a type
FACTS = {"byStop": "ByStop", "spares": None}
# where the plain rule would say something else, or fall together with a lemma
OTHER = {"getD-behind": "get_or-behind", "whole_row": "row_whole"}


def snake(name):
    return re.sub(r"([a-z0-9'])([A-Z])", lambda m: m.group(1) + "_" + m.group(2).lower(), name)


def files(*kinds):
    for kind in kinds:
        for path in sorted(glob.glob("crates/*/" + kind, recursive=True)):
            if "/out/" not in path:
                yield path


def collect():
    names = {}
    for path in files("specs/**/*.antt", "proofs/**/*.antt"):
        for line in open(path, encoding="utf-8"):
            m = DEFINED.match(line)
            if not m:
                continue
            name = m.group(1)
            if name in FACTS:
                if FACTS[name]:
                    names[name] = FACTS[name]
                continue
            # what Rattle names after the source is left alone
            if "goal." in line or re.match(r"(returns|loop|invariant|decreases)-", name):
                continue
            if name in OTHER:
                names[name] = OTHER[name]
            elif CAMEL.match(name):
                names[name] = snake(name)
            elif "-" in name and "/specs/" in path and re.match(r"^[a-z][a-z0-9'-]*$", name):
                names[name] = name.replace("-", "_")
    return names


def turned(text, names):
    whole = {n: m for n, m in names.items()}
    parts = {n: m for n, m in names.items() if "-" not in n}

    def one(m):
        token = m.group(0)
        if token in whole:
            return whole[token]
        if "-" in token:
            return "-".join(parts.get(p, p) for p in token.split("-"))
        return token

    return TOKEN.sub(one, text)


def ghostly(text, names):
    """Of a source only what is said in clauses and their imports."""
    out, inside = [], 0
    for line in text.splitlines(keepends=True):
        bare = line.strip()
        starts = re.match(r"(pub )?(ghost|ensures|requires|invariant)\b", bare)
        if starts or inside:
            out.append(turned(line, names))
            inside += line.count("{") - line.count("}")
            if bare.endswith(("{",)) and inside <= 0:
                inside = 0
        else:
            out.append(line)
        inside = max(inside, 0)
    return "".join(out)


def rewrite(names, turn):
    """Each file of specs/ and proofs/ as `turn` has it, and the clauses of each source in the new names."""
    for path in files("specs/**/*.antt", "proofs/**/*.antt", "src/**/*.rt"):
        text = open(path, encoding="utf-8").read()
        new = ghostly(text, names) if path.endswith(".rt") else turn(path, text)
        if new != text:
            open(path, "w", encoding="utf-8").write(new)


def main(argv):
    names = collect()
    taken = set()
    for path in files("specs/**/*.antt", "proofs/**/*.antt"):
        taken |= set(TOKEN.findall(open(path, encoding="utf-8").read()))
    met = sorted((n, m) for n, m in names.items() if m in taken)
    twice = sorted(m for m in set(names.values()) if list(names.values()).count(m) > 1)
    if "--list" in argv:
        for n, m in sorted(names.items()):
            print(n, m, "TAKEN" if m in taken else "")
        print("fall together:", twice)
        return 0
    rewrite(names, lambda path, text: turned(text, names))
    print(len(names), "names respelled; already there:", met, "; fall together:", twice)
    return 0


if __name__ == "__main__":
    raise SystemExit(main(sys.argv[1:]))
