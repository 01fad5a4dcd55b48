#!/usr/bin/env python3
"""Plants bugs, one at a time, in a copy of the repository, and says of each whether the check refuses it.

Usage: tools/planted.py CRATE [CRATE..]

Reads tools/planted/CRATE.txt: blocks of three lines (file, old, new; no third where the
text is dropped) with a blank line between them; `\\n` stands for a line break. `old` must stand in the file; `#2 ` before it picks its second occurrence. A block whose first
line begins with `harmless` is a change that alters nothing, and is expected to pass; the reason stands behind it.
The check is `rt check`, which is quick and no verdict: what it refuses is refused, what it passes is looked at.
"""
import pathlib, shutil, subprocess, sys, tempfile

root = pathlib.Path(__file__).resolve().parent.parent


def blocks(name):
    text = (root / "tools" / "planted" / f"{name}.txt").read_text()
    for block in text.split("\n\n"):
        lines = [l for l in block.split("\n") if l and not l.startswith("# ")]
        if not lines:
            continue
        harmless = lines[0].startswith("harmless")
        if harmless:
            lines = lines[1:]
        file, old, new = lines if len(lines) == 3 else (*lines, "")
        yield harmless, file, old.replace("\\n", "\n"), new.replace("\\n", "\n")


def place(text, old):
    n = 1
    if old.startswith("#"):
        n, old = int(old[1]), old[3:]
    at = -1
    for _ in range(n):
        at = text.find(old, at + 1)
    return at, old


def main(crates):
    with tempfile.TemporaryDirectory() as tmp:
        copy = pathlib.Path(tmp) / "copy"
        shutil.copytree(root, copy, ignore=shutil.ignore_patterns(".git", "bin", "out"))
        totals = {"refused": 0, "passed": 0, "harmless": 0}
        for crate in crates:
            check, where = ["rt", "check"], copy / "crates" / crate
            if subprocess.run(check, cwd=where, capture_output=True).returncode != 0:
                sys.exit(f"{crate}: the check fails before anything is planted")
            for harmless, file, old, new in blocks(crate):
                path = copy / "crates" / crate / file
                text = path.read_text()
                at, old = place(text, old)
                if at < 0:
                    sys.exit(f"{crate}: {file} has no {old!r}")
                path.write_text(text[:at] + new + text[at + len(old):])
                refused = subprocess.run(check, cwd=where, capture_output=True).returncode != 0
                path.write_text(text)
                verdict = "refused" if refused else "harmless" if harmless else "passed"
                totals[verdict] += 1
                print(f"{verdict}: {crate} {file}: {old!r} -> {new!r}", flush=True)
        print(", ".join(f"{n} {v}" for v, n in totals.items()))
        return 1 if totals["passed"] else 0


if __name__ == "__main__":
    if len(sys.argv) < 2 or sys.argv[1] in ("-h", "--help"):
        sys.exit(__doc__)
    sys.exit(main(sys.argv[1:]))
