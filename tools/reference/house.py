"""house DEVICE: messages on standard input, grants and faults on standard output."""

import os
import sys

import wire
from journal import DEVICE
from server import SEND, Server


def play(stream, device, keep=lambda offset, made: None):
    """What a house puts out for a whole stream; `keep` makes a record durable."""
    server = Server(device)
    heard, cut = wire.messages_of(stream)
    out = []
    for message in heard:
        for effect in server.hear(message):
            if effect[0] == SEND:
                out.append(wire.framed(effect[1]))
            else:
                keep(effect[1], effect[2])
    if cut:
        out.append(wire.framed(wire.fault(wire.MALFORMED)))
    return b"".join(out)


def main():
    path = sys.argv[1] if len(sys.argv) == 2 else ""
    try:
        file = open(path, "r+b", buffering=0)
        device = bytearray(file.read())
    except OSError as error:
        print("house: %s" % error, file=sys.stderr)
        device = b""
    if len(device) != DEVICE:
        print("house: a device is a file of %d bytes; for a new one: head -c %d /dev/zero > FILE"
              % (DEVICE, DEVICE), file=sys.stderr)
        return 1

    def keep(offset, made):
        file.seek(offset)
        file.write(made)
        os.fsync(file.fileno())

    sys.stdout.buffer.write(play(sys.stdin.buffer.read(), device, keep))
    return 0


if __name__ == "__main__":
    sys.exit(main())
