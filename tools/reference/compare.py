"""Programs beside the reference, on random cases: output, status, and the device after a run.

compare.py [--hall P] [--house P] [--box P] [--cases N] [--seed S]
Without a program it plays the reference alone and checks the promise on runs that keep the premises.
"""

import argparse
import os
import random
import subprocess
import sys
import tempfile
import time

import box
import generate
import house
import script as text
import simulation
import wire
from devices import random_device

LIMIT = 20


class HallCase:
    """A script for `hall`."""

    name = "hall"

    def __init__(self, script):
        self.script = script

    def expected(self):
        return simulation.run(self.script)

    def actual(self, path):
        done = subprocess.run([path], input=self.script, capture_output=True, timeout=LIMIT)
        return done.stdout, done.returncode

    def parts(self):
        try:
            return simulation.read_script(self.script)
        except simulation.BadScript:
            return [self.script[i:i + 1] for i in range(len(self.script))]

    def of_parts(self, parts):
        if parts and isinstance(parts[0], tuple):
            return HallCase(simulation.write_script(parts))
        return HallCase(b"".join(parts))

    def said(self):
        try:
            return text.text_of_entries(simulation.read_script(self.script))
        except simulation.BadScript:
            return self.script.hex()


class StreamCase:
    """A stream; `parts` are its messages, or its bytes where it ends within one."""

    def __init__(self, stream):
        self.stream = stream

    def parts(self):
        heard, cut = wire.messages_of(self.stream)
        if cut:
            return [self.stream[i:i + 1] for i in range(len(self.stream))]
        return [wire.framed(message) for message in heard]

    def said(self):
        heard, cut = wire.messages_of(self.stream)
        return "".join(text.message_said(m) + "\n" for m in heard) + ("ends within a message\n" if cut else "")


class BoxCase(StreamCase):
    """A stream for `box`."""

    name = "box"

    def expected(self):
        return box.play(self.stream), 0

    def actual(self, path):
        done = subprocess.run([path], input=self.stream, capture_output=True, timeout=LIMIT)
        return done.stdout, done.returncode

    def of_parts(self, parts):
        return BoxCase(b"".join(parts))


class HouseCase(StreamCase):
    """A stream for `house`, and its device."""

    name = "house"

    def __init__(self, stream, device):
        super().__init__(stream)
        self.device = device

    def expected(self):
        if len(self.device) != house.DEVICE:
            return b"", 1, self.device
        device = bytearray(self.device)
        return house.play(self.stream, device), 0, bytes(device)

    def actual(self, path):
        folder = "/dev/shm" if os.path.isdir("/dev/shm") else None
        with tempfile.NamedTemporaryFile(dir=folder) as file:
            file.write(self.device)
            file.flush()
            done = subprocess.run([path, file.name], input=self.stream, capture_output=True, timeout=LIMIT)
            with open(file.name, "rb") as after:
                return done.stdout, done.returncode, after.read()

    def of_parts(self, parts):
        return HouseCase(b"".join(parts), self.device)


def stream_to(entries, receiver):
    return b"".join(wire.framed(message) for who, message in entries if who == receiver)


def hall_case(rng):
    entries = generate.flood(rng) if rng.random() < 0.02 else generate.Net(rng, generate.random_options(rng)).make()
    script = simulation.write_script(entries)
    return HallCase(generate.mutate(rng, script) if rng.random() < 0.15 else script)


def house_case(rng):
    device = random_device(rng)
    net = generate.Net(rng, generate.random_options(rng), bytearray(device))
    stream = stream_to(net.make(), 0)
    if rng.random() < 0.15:
        stream = generate.mutate(rng, stream)
    device = bytes(device)
    if rng.random() < 0.02:
        device = rng.choice([b"", device[:-1], device + b"\0", device[:house.DEVICE // 2]])
    return HouseCase(stream, device)


def box_case(rng):
    entries = generate.Net(rng, generate.random_options(rng)).make()
    stream = stream_to(entries, rng.choice([who for who, _ in entries if who] or [1]))
    return BoxCase(generate.mutate(rng, stream) if rng.random() < 0.15 else stream)


MAKERS = {"hall": hall_case, "house": house_case, "box": box_case}


def differs(case, path):
    try:
        return case.expected() != case.actual(path)
    except subprocess.TimeoutExpired:
        return True


def minimised(case, path, seconds=30):
    """A smaller case that still differs, by leaving out parts."""
    parts, end = case.parts(), time.time() + seconds
    size = max(1, len(parts) // 2)
    while size and time.time() < end:
        at = 0
        while at < len(parts) and time.time() < end:
            fewer = parts[:at] + parts[at + size:]
            if differs(case.of_parts(fewer), path):
                parts = fewer
            else:
                at += size
        size //= 2
    smaller = case.of_parts(parts)
    return smaller if differs(smaller, path) else case


def tell(case, path, seed):
    small = minimised(case, path)
    print("%s differs, seed %s; smaller case:\n%s" % (case.name, seed, small.said()))
    expected = small.expected()
    try:
        actual = small.actual(path)
    except subprocess.TimeoutExpired:
        print("no end within %d seconds" % LIMIT)
        return
    show = (lambda out: out.decode()) if case.name == "hall" else (lambda out: out.hex())
    print("expected status %d: %s\nactual status %d: %s" % (expected[1], show(expected[0]), actual[1], show(actual[0])))
    if expected[2:] != actual[2:]:
        at = [i for i in range(min(len(expected[2]), len(actual[2]))) if expected[2][i] != actual[2][i]]
        print("devices differ at place %s, of %d and %d bytes"
              % (at[0] // 28 if at else "-", len(expected[2]), len(actual[2])))


def compare(name, path, cases, seed):
    differing, began = 0, time.time()
    for i in range(cases):
        case = MAKERS[name](random.Random("%s %d %d" % (name, seed, i)))
        if differs(case, path):
            differing += 1
            if differing == 1:
                tell(case, path, "%d case %d" % (seed, i))
    took = time.time() - began
    print("%s: %d cases, %d differ, %d a minute" % (name, cases, differing, cases * 60 / max(took, 0.001)))
    return differing


def promise(cases, seed):
    """Runs that keep the premises: none may be named broken, and no two use one address."""
    bad, granted, began = 0, 0, time.time()
    for i in range(cases):
        rng = random.Random("promise %d %d" % (seed, i))
        options = generate.random_options(rng)
        options.within, options.garbage = True, 0
        printed, status = simulation.run(simulation.write_script(generate.Net(rng, options).make()))
        granted += b" uses " in printed
        if status or b"premise" in printed:
            bad += 1
            print("seed %d case %d: %s" % (seed, i, [line for line in printed.split(b"\n") if line[:1] in b"pt"]))
    took = time.time() - began
    print("promise: %d cases, in %d somebody uses, %d bad, %d a minute" % (cases, granted, bad, cases * 60 / took))
    return bad


def main():
    parser = argparse.ArgumentParser(description=__doc__)
    for name in MAKERS:
        parser.add_argument("--" + name, metavar="PROGRAM")
    parser.add_argument("--cases", type=int, default=500)
    parser.add_argument("--seed", type=int, default=1)
    given = parser.parse_args()
    chosen = [(name, getattr(given, name)) for name in MAKERS if getattr(given, name)]
    if not chosen:
        return 1 if promise(given.cases, given.seed) else 0
    return 1 if sum([compare(name, path, given.cases, given.seed) for name, path in chosen]) else 0


if __name__ == "__main__":
    sys.exit(main())
