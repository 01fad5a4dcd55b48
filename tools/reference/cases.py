"""The reference beside the expected output of crates/server_cases, client_cases and journal_images."""

import os
import sys

import wire
from client import Client
from journal import DEVICE, RECORD, Journal, base_of, lease_of, recover, sequence_of
from server import WRITE, Server

CRATES = os.path.join(os.path.dirname(os.path.abspath(__file__)), "..", "..", "crates")


def effects_said(effects):
    writes = [e for e in effects if e[0] == WRITE]
    said = " persist %d %d" % (writes[0][1] // RECORD, len(writes)) if writes else ""
    for effect in effects[len(writes):]:
        message = effect[1]
        if message[0] == wire.FAULT:
            said += " fault %d" % message[1]
        else:
            said += " grant %d %d %d" % wire.triple(message)
    return said


def server_lines(text):
    server = None
    for line in text.split("\n")[:-1]:
        words = line.split()
        if words[0] == "#":
            server = Server(bytearray(DEVICE))
            yield line
            continue
        said = ""
        if words[0] == "reopen":
            server = Server(server.device)
        elif words[0] == "damage":
            start = int(words[1]) * RECORD
            server.device[start:start + RECORD] = b"\x55" * RECORD
        elif words[0] == "hear":
            said = effects_said(server.hear(bytes.fromhex("".join(words[1:]))))
        else:
            for _ in range(int(words[1])):
                said = effects_said(server.hear(bytes.fromhex("".join(words[2:]))))
        yield line + ":" + said


def client_lines(text):
    client = Client()
    for line in text.split("\n"):
        if not line or line.startswith("#"):
            continue
        message, _, times = line.partition("*")
        said = ""
        for i in range(int(times or 1)):
            out = client.hear(bytes.fromhex(message.strip()))
            said += " [%d] " % (i + 1) + " ".join(m.hex() for m in out) if out else ""
        yield line + ":" + said


# What is appended to each image, and the clock that says what is live.
IMAGE_LEASE, IMAGE_CLOCK = (7, 4242, 2000), 1000


IMAGES = os.path.join(CRATES, "journal_images", "data")


def image_lines(name, folder=IMAGES):
    device = bytearray(DEVICE)
    for line in read(folder, name + ".txt").split("\n"):
        words = line.split()
        if len(words) == 3:
            with open(os.path.join(folder, words[1]), "rb") as file:
                part = file.read(int(words[2]) * RECORD)
        elif words:
            part = bytes.fromhex(words[1])
        else:
            continue
        start = int(words[0]) * RECORD
        device[start:start + len(part)] = part
    new, found = not any(device), recover(device)
    journal, table = found or (Journal.begin(device), {})
    leases = [table[address] for address in sorted(table)]
    said = "".join(" %d:%d:%d" % lease for lease in leases)
    yield "%s: %s" % (name, "new" if new else "table" + said if found else "lost")
    try:
        writes = journal.append(IMAGE_LEASE, [lease for lease in leases if IMAGE_CLOCK <= lease[2]])
    except wire.Refused as refused:
        yield "  fault %d" % refused.number
        return
    yield "  at %d, %d, " % (writes[0][0] // RECORD, len(writes)) + ", ".join(
        "%d of %d %d:%d:%d" % ((sequence_of(made), base_of(made)) + lease_of(made)) for _, made in writes)


def read(*path):
    with open(os.path.join(CRATES, *path)) as file:
        return file.read()


def compare(name, ours, expected):
    differing = [(o, e) for o, e in zip(ours, expected) if o != e]
    for o, e in differing:
        print("%s:\n  reference %s\n  expected  %s" % (name, o, e))
    if len(ours) != len(expected):
        print("%s: %d lines, expected %d" % (name, len(ours), len(expected)))
    print("%s: %d lines, %d differ" % (name, len(ours), len(differing)))
    return bool(differing) or len(ours) != len(expected)


def main():
    bad = compare("server_cases", list(server_lines(read("server_cases", "data", "scripts.txt"))),
                  read("server_cases", "stdout").split("\n")[:-1])
    images = [line for name in read("journal_images", "data", "list.txt").split() for line in image_lines(name)]
    bad |= compare("journal_images", images, read("journal_images", "stdout").split("\n")[:-1])
    expected = read("client_cases", "stdout").split("\n")[:-1]
    ours = []
    for name in [line for line in expected if line.endswith(".txt")]:
        ours += [name] + list(client_lines(read("client_cases", "data", name)))
    return 1 if compare("client_cases", ours, expected) or bad else 0


if __name__ == "__main__":
    sys.exit(main())
