"""The crates' server, client and journal beside the reference on random cases, without `house` and `box`.

libraries.py BIN [--rounds N] [--seed S], with BIN the folder of the programs server_cases, client_cases and
journal_images.
"""

import argparse
import os
import random
import subprocess
import sys
import tempfile
import time

import cases
import generate
import wire
from devices import random_device
from journal import DEVICE, PLACES

PROGRAMS = ["server_cases", "client_cases", "journal_images"]
# The files that client_cases plays, in its order.
CLIENT_FILES = ["asking", "backoff", "renewal", "due", "expiry", "faults", "power", "down", "nonces", "clock"]
SECTIONS, IMAGES = 10, 8


def spaced(message):
    return message[:1].hex() + (" " + message[1:].hex() if len(message) > 1 else "")


def server_section(rng, name):
    """The messages of a random net to its server, with new beginnings and damage between."""
    if rng.random() < 0.05:
        entries, anew = generate.flood(rng), 0.0003
    else:
        entries, anew = generate.Net(rng, generate.random_options(rng)).make(), 0.015
    lines, known, damaged = ["# " + name], None, set()
    for who, message in entries:
        if who:
            continue
        if message[:1] == bytes([wire.SETTINGS]):
            known = known or message
        if rng.random() < anew:
            lines += damage(rng, damaged) + ["reopen"]
            lines += ["hear " + spaced(known)] if known and (anew < 0.01 or rng.random() < 0.9) else []
        lines.append("hear " + spaced(message))
    return lines


def damage(rng, damaged):
    """Damage to a place or none; the program reads its device again only when it begins anew."""
    place = rng.choice([0, 1, 2, 3, 4095, 4096, 4097, rng.randrange(8192)])
    if place in damaged or rng.random() < 0.6:
        return []
    damaged.add(place)
    return ["damage %d" % place]


def client_file(rng):
    entries = generate.Net(rng, generate.random_options(rng)).make()
    chosen = rng.choice([who for who, _ in entries if who] or [1])
    return [spaced(message) if message else "* 1" for who, message in entries if who == chosen]


def run(program, folder):
    return subprocess.run([program], cwd=folder, capture_output=True, timeout=60).stdout.decode().split("\n")[:-1]


def write(folder, name, lines):
    with open(os.path.join(folder, name), "w") as file:
        file.write("".join(line + "\n" for line in lines))


def write_images(rng, folder):
    """Random devices as journal_images reads them; their names."""
    names = ["image%d" % i for i in range(IMAGES)]
    write(folder, "list.txt", names)
    for name in names:
        device = random_device(rng)
        for row, part in ((0, device[:DEVICE // 2]), (1, device[DEVICE // 2:])):
            with open(os.path.join(folder, "%s.row%d" % (name, row)), "wb") as file:
                file.write(part)
        write(folder, name + ".txt", ["%d %s.row%d %d" % (row * PLACES, name, row, PLACES) for row in (0, 1)])
    return names


def one_round(rng, binaries, folder):
    """How many lines were compared, and how many differ."""
    lines = [line for i in range(SECTIONS) for line in server_section(rng, "net %d" % i)]
    write(folder, "scripts.txt", lines)
    files = {name + ".txt": client_file(rng) for name in CLIENT_FILES}
    for name in files:
        write(folder, name, files[name])
    images = write_images(rng, folder)
    actual = [line for program in PROGRAMS for line in run(os.path.join(binaries, program), folder)]
    ours = list(cases.server_lines("".join(line + "\n" for line in lines)))
    for name in files:
        ours += [name] + list(cases.client_lines("\n".join(files[name]) + "\n"))
    ours += [line for name in images for line in cases.image_lines(name, folder)]
    differing = [i for i, (a, b) in enumerate(zip(ours, actual)) if a != b]
    if differing or len(ours) != len(actual):
        at = differing[0] if differing else min(len(ours), len(actual))
        print("%d and %d lines, the first that differs is %d" % (len(ours), len(actual), at))
        print("reference:\n  " + "\n  ".join(ours[max(0, at - 5):at + 1]))
        print("crate:\n  " + "\n  ".join(actual[max(0, at - 5):at + 1]))
    return len(ours), len(differing) + abs(len(ours) - len(actual))


def main():
    parser = argparse.ArgumentParser(description=__doc__)
    parser.add_argument("binaries")
    parser.add_argument("--rounds", type=int, default=20)
    parser.add_argument("--seed", type=int, default=1)
    given = parser.parse_args()
    lines, differing, began = 0, 0, time.time()
    with tempfile.TemporaryDirectory() as folder:
        for i in range(given.rounds):
            some, bad = one_round(random.Random("libraries %d %d" % (given.seed, i)), os.path.abspath(given.binaries), folder)
            lines, differing = lines + some, differing + bad
    nets, images = given.rounds * (SECTIONS + len(CLIENT_FILES)), given.rounds * IMAGES
    print("%d nets, %d devices, %d lines, %d differ, %d cases a minute"
          % (nets, images, lines, differing, (nets + images) * 60 / (time.time() - began)))
    return 1 if differing else 0


if __name__ == "__main__":
    sys.exit(main())
