"""box: messages on standard input, requests, uses and faults on standard output."""

import sys

import wire
from client import Client


def play(stream):
    client = Client()
    heard, cut = wire.messages_of(stream)
    out = [wire.framed(put) for message in heard for put in client.hear(message)]
    if cut:
        out.append(wire.framed(wire.fault(wire.MALFORMED)))
    return b"".join(out)


if __name__ == "__main__":
    sys.stdout.buffer.write(play(sys.stdin.buffer.read()))
