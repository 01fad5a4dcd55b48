"""The scripts of four accidents, with the right parties and with one that makes the mistake of each.

The net brings what was sent: where a mistaken server grants another address than the script says, it
brings that grant.
"""

import os
import sys

import script
import wire
from client import Client
from journal import DEVICE
from server import Server
from simulation import Hall

DATA = os.path.join(os.path.dirname(os.path.abspath(__file__)), "..", "..", "crates", "hall_cases", "data")


class SleepsOn(Client):
    """Its clock stands in a case, and it takes itself to be using what it used."""

    def hear(self, message):
        if message == wire.CRASH_MESSAGE or message[:1] == bytes([wire.RESTART]):
            return []
        return super().hear(message)


class CountsFromComing(Client):
    """A term from the grant's coming, however late that is."""

    def _grant(self, out, client, nonce, address):
        if self.waiting is not None:
            self.waiting = (self.waiting[0], self.clock)
        return super()._grant(out, client, nonce, address)


class WritesNothing(Server):
    """Leases in memory alone: what was granted is gone after a crash."""

    def _crash(self):
        super()._crash()
        self.device[:] = bytes(DEVICE)


class TakesAnyGrant(Client):
    """Whatever grant comes is taken for the request that waits."""

    def _grant(self, out, client, nonce, address):
        if self.waiting is not None:
            nonce = self.waiting[0]
        return super()._grant(out, client, nonce, address)


MISTAKES = {"sleep": (Server, SleepsOn), "late": (Server, CountsFromComing),
            "crash": (WritesNothing, Client), "twice": (Server, TakesAnyGrant)}


class Bringing(Hall):
    """A hall whose net brings the grant that was sent for a request."""

    def __init__(self, server, client):
        super().__init__(server, client)
        self.granted = {}

    def hear(self, who, message):
        out = super().hear(who, message)
        for put in out:
            if put[0] == wire.GRANT:
                self.granted[put[:13]] = put
        return out

    def step(self, entry, judged):
        who, message = entry
        super().step((who, self.granted.get(message[:13], message)), judged)


def played(entries, server, client):
    hall = Bringing(server, client)
    hall.play(entries)
    return hall.lines


def main():
    bad = 0
    for name, (server, client) in MISTAKES.items():
        with open(os.path.join(DATA, name + ".txt")) as file:
            entries = script.entries_of_text(file.read())
        with open(os.path.join(DATA, name + ".out")) as file:
            expected = file.read().split("\n")[:-1]
        right, wrong = played(entries, Server, Client), played(entries, server, client)
        told = [line for line in wrong if not line[0].isdigit()]
        bad += right != expected or not any(line.startswith("two use") for line in wrong)
        print("%s: %s; with the mistake: %s" % (name, "as expected" if right == expected else "DIFFERS", told))
    return 1 if bad else 0


if __name__ == "__main__":
    sys.exit(main())
