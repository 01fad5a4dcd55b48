"""A server, 64 clients and a script that is the net: what `hall` prints."""

import wire
from client import Client
from journal import DEVICE
from server import Server, sent

CLIENTS = 64


class BadScript(Exception):
    """The entry that can't be read begins at byte `at`."""

    def __init__(self, at):
        super().__init__(at)
        self.at = at


def read_script(script):
    """Entries (who, message) of a script, read whole."""
    entries, at = [], 0
    while at < len(script):
        if script[at] > CLIENTS or at + 1 >= len(script):
            raise BadScript(at)
        end = at + 2 + script[at + 1]
        if end > len(script):
            raise BadScript(at)
        entries.append((script[at], script[at + 2:end]))
        at = end
    return entries


def write_script(entries):
    return b"".join(bytes([who, len(message)]) + message for who, message in entries)


class Premises:
    """What the promise takes for granted of a script; each `broken` gives the first broken one or None."""

    def __init__(self):
        self.sent, self.drawn = set(), set()
        self.numbers, self.settings, self.first_skew = {}, {}, None
        self.leads = {}
        self.set_back = False

    def note_sent(self, message):
        if message[0] in (wire.REQUEST, wire.GRANT):
            self.sent.add(message)

    def broken(self, hall, entry, before, out, judged):
        """After an entry; `before` is the receiver's (clock, settings, own number) before it."""
        who, message = entry
        party = hall.party(who)
        found = []
        refused = any(m[0] == wire.FAULT and m[1] != wire.LOST for m in out)
        self._note(who, message, party, before, refused)
        if self.set_back or (judged and self._clocks(hall)):
            found.append("clocks")
        if self._unsent(who, message):
            found.append("message")
        if self._drawn_twice(who, message):
            found.append("nonce")
        if before[2] is None and who and party.number is not None:
            found += ["number"] if self._taken_twice(who, party.number) else []
        if before[1] is None and party.settings is not None:
            found += ["settings"] if any(s != party.settings for s in self.settings.values()) else []
            self.settings[who] = party.settings
        if wire.fault(wire.COUNT) in out:
            found.append("count")
        return found[0] if found else None

    def _note(self, who, message, party, before, refused):
        """Stretches that begin, the first settings, a server's clock set back."""
        if before[1] is None and party.settings is not None and self.first_skew is None:
            self.first_skew = party.settings.skew
        restarted = len(message) == 9 and message[0] == wire.RESTART and not refused
        if restarted and who == 0 and party.clock < before[0]:
            self.set_back = True
        if who and (restarted or (before[2] is None and party.number is not None)):
            self.leads.pop(who, None)

    def _clocks(self, hall):
        if not hall.server.up:
            return False
        for who in hall.numbered:
            client = hall.clients[who]
            if not client.up:
                continue
            lead = client.clock - hall.server.clock
            least, greatest = self.leads.get(who, (lead, lead))
            self.leads[who] = (min(least, lead), max(greatest, lead))
        if self.first_skew is None:
            return False
        return any(hall.clients[who].up and greatest - least > self.first_skew
                   for who, (least, greatest) in self.leads.items())

    def _unsent(self, who, message):
        kind = wire.REQUEST if who == 0 else wire.GRANT
        return len(message) == 15 and message[0] == kind and message not in self.sent

    def _drawn_twice(self, who, message):
        if who == 0 or len(message) != 9 or message[0] != wire.NONCE:
            return False
        twice = message in self.drawn
        self.drawn.add(message)
        return twice

    def _taken_twice(self, who, number):
        twice = number in self.numbers
        self.numbers.setdefault(number, who)
        return twice


class Hall:
    def __init__(self, server=Server, client=Client):
        self.server = server(bytearray(DEVICE))
        self.clients = [None] + [client() for _ in range(CLIENTS)]
        self.numbered = []
        self.premises, self.premise_named, self.two_used = Premises(), False, False
        self.lines = []

    def party(self, who):
        return self.clients[who] if who else self.server

    def hear(self, who, message):
        """What the receiver puts out."""
        return self.clients[who].hear(message) if who else sent(self.server.hear(message))

    def play(self, entries):
        for i, entry in enumerate(entries):
            tick_run = i + 1 < len(entries) and entry[1] == wire.TICK_MESSAGE == entries[i + 1][1]
            self.step(entry, not tick_run)

    def step(self, entry, judged):
        who, message = entry
        party = self.party(who)
        before = (party.clock, party.settings, getattr(party, "number", None))
        out = self.hear(who, message)
        if who and before[2] is None and party.number is not None:
            self.numbered.append(who)
        for put in out:
            if put[0] == wire.FAULT:
                self.lines.append("%s: fault %d" % ("box %d" % who if who else "house", put[1]))
        if not self.premise_named:
            broken = self.premises.broken(self, entry, before, out, judged)
            for put in out:
                self.premises.note_sent(put)
            if broken:
                self.premise_named = True
                self.lines.append("premise: " + broken)
        self._uses(who, message, out)

    def users(self):
        return [(who, self.clients[who].using[0]) for who in self.numbered_in_order() if self.clients[who].using]

    def numbered_in_order(self):
        return sorted(self.numbered)

    def _uses(self, who, message, out):
        ticked = who == 0 and message == wire.TICK_MESSAGE and wire.fault(wire.COUNT) not in out
        if not ticked and (self.two_used or not out):
            return
        users = self.users()
        if not self.two_used:
            self._two_use(users)
        if ticked:
            said = ", ".join("%d uses %d" % user for user in users) or "nobody"
            self.lines.append("%d: %s" % (self.server.clock, said))

    def _two_use(self, users):
        by_address = {}
        for who, address in users:
            by_address.setdefault(address, []).append(who)
        for address in sorted(by_address):
            clients = by_address[address]
            if len(clients) > 1:
                self.two_used = True
                self.lines.append("two use %d: %d and %d" % (address, clients[0], clients[1]))
                return


def run(script, server=Server, client=Client):
    """What `hall` prints for a script, and its status."""
    try:
        entries = read_script(script)
    except BadScript as bad:
        return b"script: fault 1 at byte %d\n" % bad.at, 1
    hall = Hall(server, client)
    hall.play(entries)
    return "".join(line + "\n" for line in hall.lines).encode(), 1 if hall.two_used else 0
