"""The client: asks with lent nonces, and uses an address for a term from its asking."""

from collections import deque

import wire
from wire import COUNT_LIMIT, Refused

PAUSES = (4, 8, 16, 32, 64)
LEAST_RENEWAL = 60


class Client:
    def __init__(self):
        self.clock, self.settings, self.number, self.up = 0, None, None, True
        self.nonces = deque()
        self._forget()

    def _forget(self):
        self.using, self.waiting, self.last = None, None, None
        self.due, self.pause = 0, 0

    def hear(self, message):
        """The messages put out, in order."""
        try:
            kind = wire.kind_of(message, wire.TO_CLIENT)
            return self._taken(kind, message)
        except Refused as refused:
            return [wire.fault(refused.number)]

    def _taken(self, kind, message):
        out = []
        if kind == wire.GRANT:
            if not self._grant(out, *wire.triple(message)):
                return out
        elif kind == wire.SETTINGS:
            self.settings = wire.read_settings(message, self.settings)
        elif kind == wire.TICK:
            self._tick(out)
        elif kind == wire.CRASH:
            self._crash(out)
        elif kind == wire.RESTART:
            clock = wire.read_clock(message)
            self._crash(out)
            self.clock, self.up, self.due = clock, True, clock
        elif kind == wire.NUMBER:
            if self.number is not None:
                raise Refused(wire.BAD_SETTINGS)
            self.number = wire.number(message[1:5])
        else:
            self.nonces.append(wire.number(message[1:9]))
        self._ask(out)
        return out

    def _crash(self, out):
        if not self.up:
            return
        if self.using:
            out.append(bytes([wire.NO_ADDRESS]))
        self._forget()
        self.up = False

    def _tick(self, out):
        if not self.up:
            return
        if self.clock + 1 >= COUNT_LIMIT:
            raise Refused(wire.COUNT)
        self.clock += 1
        if self.using and self.clock > self.using[1]:
            self.using = None
            out.append(bytes([wire.NO_ADDRESS]))
            self.due, self.pause = self.clock, 0

    def _grant(self, out, client, nonce, address):
        """Whether the grant was taken; while down it is passed over."""
        if self.settings is None:
            raise Refused(wire.BAD_SETTINGS)
        if address >= self.settings.addresses:
            raise Refused(wire.BAD_ADDRESS)
        if not self.up:
            return False
        if self.number is None or client != self.number:
            raise Refused(wire.NOT_OURS)
        if self.waiting is None or self.waiting[0] != nonce:
            raise Refused(wire.NOT_WAITING)
        asked = self.waiting[1]
        until = asked + self.settings.term
        if self.clock > until:
            raise Refused(wire.TOO_LATE)
        if self.using and self.using[0] != address:
            out.append(bytes([wire.NO_ADDRESS]))
        self.using, self.waiting, self.last = (address, until), None, address
        self.due = asked + max((self.settings.term + 1) // 2, LEAST_RENEWAL)
        out.append(wire.in_use(address, until))
        return True

    def _ask(self, out):
        ready = self.up and self.settings is not None and self.number is not None
        if not ready or not self.nonces or self.clock < self.due:
            return
        nonce = self.nonces.popleft()
        preferred = self.settings.addresses if self.last is None else self.last
        self.waiting = (nonce, self.clock)
        if self.using:
            self.due = self.clock + max((self.using[1] - self.clock + 1) // 2, LEAST_RENEWAL)
        else:
            self.due = self.clock + PAUSES[self.pause]
            self.pause = min(self.pause + 1, len(PAUSES) - 1)
        out.append(wire.request(self.number, nonce, preferred))
