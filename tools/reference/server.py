"""The server: lends addresses, and writes each lease before its grant."""

import wire
from journal import DEVICE, Journal, recover
from wire import COUNT_LIMIT, Refused

WRITE, SEND = "write", "send"


class Server:
    def __init__(self, device):
        if len(device) != DEVICE:
            raise ValueError("a device has %d bytes" % DEVICE)
        self.device = device
        self.clock, self.settings, self.up = 0, None, True
        self.journal, self.table, self.silent_until = None, {}, None

    def hear(self, message):
        """Effects in order: (WRITE, offset, record) and (SEND, message)."""
        try:
            kind = wire.kind_of(message, wire.TO_SERVER)
            return self._taken(kind, message)
        except Refused as refused:
            return [(SEND, wire.fault(refused.number))]

    def _taken(self, kind, message):
        if kind == wire.REQUEST:
            return self._request(*wire.triple(message))
        if kind == wire.SETTINGS:
            self.settings = wire.read_settings(message, self.settings)
            return self._read() if self.up else []
        if kind == wire.TICK:
            return self._tick()
        if kind == wire.CRASH:
            self._crash()
            return []
        clock = wire.read_clock(message)
        self._crash()
        self.clock, self.up = clock, True
        return self._read() if self.settings is not None else []

    def _crash(self):
        self.up = False
        self.journal, self.table, self.silent_until = None, {}, None

    def _read(self):
        found = recover(self.device)
        if found is None:
            self.silent_until = self.clock + self.settings.term + 2 * self.settings.skew
            return [(SEND, wire.fault(wire.LOST))]
        self.journal, table = found
        self.table = {address: lease for address, lease in table.items() if address < self.settings.addresses}
        return []

    def _tick(self):
        if self.clock + 1 >= COUNT_LIMIT:
            raise Refused(wire.COUNT)
        self.clock += 1
        if self.up and self.silent_until is not None and self.clock > self.silent_until:
            self.silent_until = None
            self.journal, self.table = Journal.begin(self.device), {}
        return []

    def _live(self):
        """The live leases by rising address."""
        return [self.table[a] for a in sorted(self.table) if self.clock <= self.table[a][2]]

    def _choose(self, client, preferred, live):
        for address, holder, _ in live:
            if holder == client:
                return address
        held = {lease[0] for lease in live}
        if preferred < self.settings.addresses and preferred not in held:
            return preferred
        for address in range(self.settings.addresses):
            if address not in held:
                return address
        raise Refused(wire.NONE_FREE)

    def _request(self, client, nonce, preferred):
        if self.settings is None:
            raise Refused(wire.BAD_SETTINGS)
        if preferred > self.settings.addresses:
            raise Refused(wire.BAD_ADDRESS)
        if not self.up:
            return []
        if self.silent_until is not None:
            raise Refused(wire.LOST)
        live = self._live()
        address = self._choose(client, preferred, live)
        lease = (address, client, self.clock + self.settings.term + self.settings.skew)
        writes = self.journal.append(lease, live)
        self.table[address] = lease
        return [(WRITE, at, made) for at, made in writes] + [(SEND, wire.grant(client, nonce, address))]


def sent(effects):
    return [effect[1] for effect in effects if effect[0] == SEND]
