#!/usr/bin/env python3
"""Tries the programs as a user would, against the rules as tools/programs.py has them. First: tools/build.sh house box_."""
import os
import random
import resource
import select
import signal
import stat
import subprocess
import sys
import tempfile

sys.path.insert(0, os.path.dirname(os.path.abspath(__file__)))
from programs import *  # noqa: E402,F403

BIN = os.path.join(os.path.dirname(os.path.abspath(__file__)), "..", "bin")
HOUSE, BOX = os.path.join(BIN, "house"), os.path.join(BIN, "box")
FAILED = []


def check(name, good):
    print(("ok    " if good else "FAILED"), name)
    if not good:
        FAILED.append(name)


def run(args, data=b"", **more):
    return subprocess.run(args, input=data, stdout=subprocess.PIPE, stderr=subprocess.PIPE, timeout=60, **more)


def zeros(path):
    with open(path, "wb") as f:
        f.write(bytes(DEVICE_BYTES))
    return path


def content(path):
    with open(path, "rb") as f:
        return f.read()


class Live:
    """A program on pipes: writes some bytes, and reads what they should be answered by."""

    def __init__(self, args):
        self.p = subprocess.Popen(args, stdin=subprocess.PIPE, stdout=subprocess.PIPE, stderr=subprocess.PIPE, bufsize=0)

    def say(self, data, pieces=1):
        at = 0
        for k in range(pieces):
            to = len(data) * (k + 1) // pieces
            self.p.stdin.write(data[at:to])
            at = to

    def hears(self, wanted):
        got = b""
        while len(got) < len(wanted) and select.select([self.p.stdout], [], [], 5)[0]:
            part = self.p.stdout.read(65536)
            if not part:
                break
            got += part
        return got == wanted

    def kill(self):
        self.p.send_signal(signal.SIGKILL)
        self.p.wait()


def usage(folder):
    for program, args in [(HOUSE, [[], ["a", "b"]]), (BOX, [["a"], ["--help", "b"]])]:
        name = os.path.basename(program)
        helped = run([program, "--help"])
        check(f"{name} --help", helped.returncode == 0 and b"usage" in helped.stdout and not helped.stderr)
        for words in args:
            r = run([program] + words)
            check(f"{name} {' '.join(words)}: usage", r.returncode == 1 and b"usage" in r.stderr and not r.stdout)


def refused(folder):
    missing, short = os.path.join(folder, "missing"), os.path.join(folder, "short")
    with open(short, "wb") as f:
        f.write(bytes(DEVICE_BYTES - 1))
    long = os.path.join(folder, "long")
    with open(long, "wb") as f:
        f.write(bytes(DEVICE_BYTES + 1))
    for name, path in [("a missing file", missing), ("a short file", short), ("a long file", long), ("a folder", folder), ("/dev/null", "/dev/null")]:
        before = content(path) if os.path.isfile(path) else None
        r = run([HOUSE, path], settings(4, 60, 5) + request(1, 2, 4))
        same = (content(path) if os.path.isfile(path) else None) == before and os.path.exists(path) == (path != missing)
        told = (b"head -c 229376" in r.stderr) == (path != folder) and b"house: " in r.stderr
        check(f"{name} is refused", r.returncode == 1 and told and not r.stdout and same)


def read_only(folder):
    path = zeros(os.path.join(folder, "read-only"))
    os.chmod(path, stat.S_IRUSR | stat.S_IRGRP | stat.S_IROTH)
    words = [HOUSE, path]
    if os.geteuid() == 0:
        os.chmod(folder, 0o755)
        copy = os.path.join(folder, "house")
        with open(copy, "wb") as f:
            f.write(content(HOUSE))
        os.chmod(copy, 0o755)
        words = ["setpriv", "--reuid=65534", "--clear-groups", copy, path]
    r = run(words, settings(4, 60, 5) + request(1, 2, 4))
    check("a read-only device is refused", r.returncode == 1 and not r.stdout and b"ermission" in r.stderr and not any(content(path)))


def full_output(folder):
    path = zeros(os.path.join(folder, "full-output"))
    with open("/dev/full", "wb") as full:
        r = subprocess.run([HOUSE, path], input=settings(4, 60, 5) + request(1, 2, 4), stdout=full, stderr=subprocess.PIPE)
    check("house: an output that is full", r.returncode == 1 and b"standard output" in r.stderr)
    with open("/dev/full", "wb") as full:
        r = subprocess.run([BOX], input=frame(b"\x63"), stdout=full, stderr=subprocess.PIPE)
    check("box: an output that is full", r.returncode == 1 and b"standard output" in r.stderr)


def full_disk(folder):
    """No file may grow or be written past 56 bytes: the first two leases are saved and answered, the third is not."""
    path = zeros(os.path.join(folder, "full-disk"))

    def limit():
        signal.signal(signal.SIGXFSZ, signal.SIG_IGN)
        resource.setrlimit(resource.RLIMIT_FSIZE, (2 * PLACE, 2 * PLACE))

    asked = settings(9, 60, 5) + b"".join(request(k, k, 9) for k in range(1, 6))
    r = run([HOUSE, path], asked, preexec_fn=limit)
    check("a device that can't be written: what was saved is answered, and no more", r.returncode == 1 and r.stdout == grant(1, 1, 0) + grant(2, 2, 1) and b"can't be saved" in r.stderr)
    again = run([HOUSE, path], settings(9, 60, 5) + request(3, 9, 0) + request(2, 10, 9))
    check("and is there afterwards", again.stdout == grant(3, 9, 2) + grant(2, 10, 1))


def live(folder):
    path = zeros(os.path.join(folder, "live"))
    house, box, model, client = Live([HOUSE, path]), Live([BOX]), Server(bytes(DEVICE_BYTES)), Client()
    good = True
    house.say(settings(8, 120, 10))
    model.stream(settings(8, 120, 10))
    box.say(settings(8, 120, 10) + own(3) + nonce(77), 40)
    asked = client.stream(settings(8, 120, 10) + own(3) + nonce(77))
    good &= box.hears(asked)
    house.say(asked, 16)
    answer = model.stream(asked)
    good &= house.hears(answer)
    box.say(answer)
    good &= box.hears(client.stream(answer))
    check("a server and a client on pipes, a byte at a time", good)
    for p in (house, box):
        p.p.stdin.close()
        check("its input ends: status 0", p.p.wait() == 0)


def killed(folder):
    """Killed and begun again, many times: each answered lease is there."""
    random.seed(4)
    path, good, held, clock = zeros(os.path.join(folder, "killed")), True, {}, 0
    for turn in range(40):
        house = Live([HOUSE, path])
        house.say(settings(64, 3000, 10) + restart(clock))
        for client in random.sample(range(1, 60), 20):
            number = random.getrandbits(64)
            house.say(request(client, number, 64))
            address = held.get(client)
            if address is None:
                address = min(set(range(64)) - set(held.values()))
            good &= house.hears(grant(client, number, address))
            held[client] = address
        # one more, unanswered when the kill comes: it may be there or not
        late = random.choice(sorted(held))
        house.say(request(late, 1, 64))
        house.kill()
        clock += 1
    check("killed 40 times: each answered lease is kept", good)


def damaged(folder):
    path = zeros(os.path.join(folder, "damaged"))
    with open(path, "r+b") as f:
        f.write(b"\x01")
    asked = settings(4, 60, 5) + request(1, 2, 4) + TICK * 70 + request(1, 3, 4) + TICK + request(1, 4, 4)
    before = content(path)
    r = run([HOUSE, path], asked)
    check("a damaged device: fault 8, and silence", r.stdout == fault(8) + fault(8) + fault(8) + grant(1, 4, 0) and r.stdout == Server(before).stream(asked))
    again = run([HOUSE, path], settings(4, 60, 5) + request(2, 5, 4) + request(1, 6, 3))
    check("after the silence it lends anew, and keeps it", again.stdout == grant(2, 5, 1) + grant(1, 6, 0))


def at_random(folder):
    """Streams of random messages, some malformed, in random pieces, against the rules."""
    random.seed(7)

    def some(kinds):
        pick = random.random()
        if pick < 0.04:
            return frame(random.randbytes(random.randrange(0, 40)))
        return random.choice(kinds)()

    def small():
        return random.randrange(0, 7)

    clocks = lambda: restart(random.choice([small(), random.randrange(0, 400), LIMIT - 2, LIMIT]))
    shared = [lambda: TICK] * 10 + [lambda: TICK * random.randrange(1, 90)] * 3 + [lambda: CRASH, clocks]
    server = shared + [lambda: request(small(), small(), random.randrange(0, 8))] * 20
    client = shared + [lambda: nonce(small())] * 8 + [lambda: grant(random.choice([3, 3, 3, 2]), small(), random.randrange(0, 7))] * 14
    good = {HOUSE: 0, BOX: 0}
    for turn in range(150):
        start = random.choice([settings(6, 60, 5), settings(3, 86400, 600), settings(1024, 60, 0), b""])
        for program, kinds, model, begin in [
            (HOUSE, server, Server(bytes(DEVICE_BYTES)), start),
            (BOX, client, Client(), start + random.choice([own(3), b""])),
        ]:
            data = begin + b"".join(some(kinds) for _ in range(random.randrange(1, 200)))
            data = data[: len(data) - random.choice([0, 0, 1, 3])]
            path = zeros(os.path.join(folder, "random"))
            p = Live([program] + ([path] if program == HOUSE else []))
            p.say(data, random.choice([1, 2, 9]))
            p.p.stdin.close()
            got = p.p.stdout.read() + b""
            while part := p.p.stdout.read():
                got += part
            same = got == model.stream(data) and p.p.wait() == 0
            if program == HOUSE:
                same &= content(path) == bytes(model.device)
            good[program] += same
    check("150 random streams to house, with its device", good[HOUSE] == 150)
    check("150 random streams to box", good[BOX] == 150)


if __name__ == "__main__":
    with tempfile.TemporaryDirectory() as folder:
        for part in [usage, refused, read_only, full_output, full_disk, live, killed, damaged, at_random]:
            part(folder)
    sys.exit(1 if FAILED else 0)
