"""Bugs planted in a copy of the reference: each must make a difference to the crates, or the cases are too tame.

planted.py BIN [--rounds N], as libraries.py.
"""

import argparse
import os
import shutil
import subprocess
import sys
import tempfile

HERE = os.path.dirname(os.path.abspath(__file__))

BUGS = [
    ("server.py", "self.clock <= self.table", "self.clock < self.table"),
    ("server.py", "self.clock > self.silent_until", "self.clock >= self.silent_until"),
    ("server.py", "+ 2 * self.settings.skew", "+ self.settings.skew"),
    ("server.py", "if preferred < self", "if preferred + 1 < self"),
    ("server.py", "if holder == client:", "if holder == client and address != preferred:"),
    ("server.py", "if address < self.settings.addresses}", "}"),
    ("journal.py", "len(records) >= base_of", "len(records) > base_of"),
    ("journal.py", "first = highest_sequence(self.device) + 1", "first = self.sequence"),
    ("journal.py", "return Journal(device, 0, 0, highest_sequence(device) + 1, 0)", "return Journal(device, 0, 0, 1, 0)"),
    ("journal.py", "sequence + len(leases) > COUNT_LIMIT", "sequence + len(leases) >= COUNT_LIMIT"),
    ("journal.py", "if not any(device):", "if not any(device[:4096]):"),
    ("client.py", "if self.clock > until", "if self.clock >= until"),
    ("client.py", "self.clock > self.using[1]", "self.clock >= self.using[1]"),
    ("client.py", "(self.using[1] - self.clock + 1) // 2", "(self.using[1] - self.clock) // 2"),
    ("client.py", "(self.settings.term + 1) // 2", "self.settings.term // 2"),
    ("client.py", "self.due, self.pause = self.clock, 0", "self.due = self.clock"),
    ("client.py", "if self.using and self.using[0] != address:", "if self.using:"),
    ("client.py", "self.waiting[0] != nonce", "False"),
]


def seen(bug, binaries, rounds):
    file, old, new = bug
    with tempfile.TemporaryDirectory() as folder:
        copy = os.path.join(folder, "reference")
        shutil.copytree(HERE, copy)
        path = os.path.join(copy, file)
        with open(path) as source:
            text = source.read()
        assert text.count(old) == 1, bug
        with open(path, "w") as target:
            target.write(text.replace(old, new))
        done = subprocess.run([sys.executable, os.path.join(copy, "libraries.py"), binaries, "--rounds", str(rounds)],
                              capture_output=True)
        return done.returncode != 0 and b"Traceback" not in done.stderr


def main():
    parser = argparse.ArgumentParser(description=__doc__)
    parser.add_argument("binaries")
    parser.add_argument("--rounds", type=int, default=12)
    given = parser.parse_args()
    unseen = [bug for bug in BUGS if not seen(bug, os.path.abspath(given.binaries), given.rounds)]
    for bug in unseen:
        print("not seen: %s: %s" % (bug[0], bug[2]))
    print("%d of %d planted bugs are seen" % (len(BUGS) - len(unseen), len(BUGS)))
    return 1 if unseen else 0


if __name__ == "__main__":
    sys.exit(main())
