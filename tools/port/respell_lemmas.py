#!/usr/bin/env python3
"""Brings the repository's lemmas, and facts with dashes, to today's spelling: after tools/port/respell.py, once.

usage: python3 tools/port/respell_lemmas.py [--list]     at the top of the repository

Plain words are joined by `_`; a dash stays between two names of definitions, as in `length-drop`, and before an operator.
A fact is spelled as a type. Names that the library has too, names that Rattle makes of the source, and names of src/ stay.
It stops where two names would fall together in one file.
"""
import glob
import os
import re
import sys

sys.path.insert(0, os.path.dirname(os.path.abspath(__file__)))
from respell import TOKEN, files, rewrite, snake  # noqa: E402

KIT = "/opt/rattle/rattle"
SIGNATURE = re.compile(r"^\s*(?:(?:abbrev|unfoldable|pub|opaque|record|data)\s+)*([^\s:(){},;.\[\]]+)(?:\s+[({][^:]*:.*)?\s*:\s")
PLAIN = re.compile(r"^\s*(?:(?:abbrev|unfoldable|pub|opaque)\s+)*([^\s:(){},;.\[\]]+)\s*:\s")
ALIAS = re.compile(r"\bas ([a-z][A-Za-z0-9_'-]*)")
MADE = re.compile(r"^(returns|loop|invariant|invariant_of|decreases|prove|overflow_\w+|bounds|slice_bounds|then|else|in|in_ok|in_err)-")
OPERATOR = re.compile(r"^[^A-Za-z0-9_']+$")


def defined(path):
    for line in open(path, encoding="utf-8", errors="replace"):
        if line.lstrip().startswith("--"):
            continue
        m = PLAIN.match(line)
        if m and "goal." not in line:
            yield m.group(1)


def library():
    found = set()
    for root in ("core", "std", "std_alloc", "std_collections", "std_heap", "std_io", "io", "logic", "antt"):
        for path in glob.glob(f"{KIT}/{root}/**/*.antt", recursive=True):
            found |= set(defined(path))
    return found


def camel(name):
    return "".join(w[:1].upper() + w[1:] for w in re.split(r"[-_]", name))


def lemma(name, known):
    parts = name.split("-")

    def join(xs):
        if len(xs) < 2:
            return "".join(xs)
        for i in range(1, len(xs)):
            left = "_".join(xs[:i])
            if left not in known:
                continue
            if OPERATOR.match(xs[i]):
                return left + "-" + xs[i] + ("-" + join(xs[i + 1 :]) if xs[i + 1 :] else "")
            if any("_".join(xs[i:k]) in known for k in range(i + 1, len(xs) + 1)):
                return left + "-" + join(xs[i:])
        for i in range(1, len(xs)):
            if OPERATOR.match(xs[i]):
                return "_".join(xs[:i]) + "-" + xs[i] + ("-" + join(xs[i + 1 :]) if xs[i + 1 :] else "")
        return "_".join(xs)

    return join(parts)


def collect():
    known, names = set(), set()
    for path in files("specs/**/*.antt"):
        known |= {n for n in defined(path) if "-" not in n and n[0].islower()}
    theirs = library()
    for path in glob.glob(f"{KIT}/core/specs/**/*.antt", recursive=True):
        for line in open(path, encoding="utf-8", errors="replace"):
            m = re.match(r"^(?:(?:abbrev|unfoldable)\s+)?pub ([a-z]\w*)\s*:\s", line)
            if m:
                known.add(m.group(1))
    for path in files("specs/**/*.antt", "proofs/**/*.antt"):
        names |= set(defined(path))
        for line in open(path, encoding="utf-8"):
            if line.startswith("use ") and "-" in line:
                names |= {a for a in ALIAS.findall(line) if a != "goal"}
    for path in files("src/**/*.rt"):
        for line in open(path, encoding="utf-8"):
            if line.strip().startswith("ghost use "):
                names |= set(ALIAS.findall(line))
    turned = {}
    for n in names - theirs:
        if MADE.match(n) or n.startswith(("c.", "l.", "w.")):
            continue
        if re.match(r"^[A-Z].*-", n):
            turned[n] = camel(n)
        elif "-" in n:
            turned[n] = lemma(n, known)
            # a lemma that would have its function's name
            if turned[n] != n and turned[n] in names | known | theirs:
                turned[n] += "_lem"
        elif re.match(r"^[a-z]\w*[A-Z]", n):
            turned[n] = snake(n)
    return {n: m for n, m in turned.items() if n != m}


def substitute(text, names, made):
    """Tokens, but for the fields of what Rattle makes (paths that begin with c, l or w in a function's own files)."""

    def one(m):
        if made and re.search(r"(?<![\w'-])[clw](\.[\w'+-]+)*\.$", text[max(0, m.start() - 200) : m.start()]):
            return m.group(0)
        return names.get(m.group(0), m.group(0))

    return TOKEN.sub(one, text)


def is_made(path):
    """Whether a file answers goals of a function, and so cites names that Rattle makes."""
    return os.path.basename(path) in ("Answers.antt", "Invariants.antt", "Proof.antt") and not os.path.dirname(path).endswith("/proofs")


def main(argv):
    names = collect()
    if "--list" in argv:
        for n, m in sorted(names.items()):
            print(n, m)
        return 0
    clashes = []
    for path in files("specs/**/*.antt", "proofs/**/*.antt"):
        lines = [x for x in open(path, encoding="utf-8") if not x.rstrip().endswith((".Goals as goal", ".Given as goal"))]
        tokens = set(TOKEN.findall("".join(lines)))
        new = {}
        for t in tokens:
            m = names.get(t, t)
            if m in new and new[m] != t:
                clashes.append((path, new[m], t, m))
            new[m] = t
    if clashes:
        for c in clashes:
            print("falls together:", *c)
        return 1
    rewrite(names, lambda path, text: substitute(text, names, is_made(path)))
    print(len(names), "names respelled")
    return 0


if __name__ == "__main__":
    raise SystemExit(main(sys.argv[1:]))
