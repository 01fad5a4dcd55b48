"""A random net: the reference parties, and what is under way between them."""

import wire
from client import Client
from journal import DEVICE
from server import Server, sent

# A random net ends here, however many of its entries were ticks.
MOST_ENTRIES = 12000


class Options:
    """How a random net is made."""

    def __init__(self, entries=300, clients=4, skew=5, within=True, garbage=0.01, addresses=None, term=None):
        self.entries, self.clients, self.skew, self.within = entries, clients, skew, within
        self.garbage, self.addresses, self.term = garbage, addresses, term


class Net:
    def __init__(self, rng, options, device=None):
        self.rng, self.options = rng, options
        self.server = Server(device if device is not None else bytearray(DEVICE))
        self.clients = [None] + [Client() for _ in range(options.clients)]
        self.entries, self.requests, self.grants, self.drawn = [], [], [], []
        self.all_grants, self.heard = [], 0
        # where clocks may leave the skew, at times one client's is far too slow
        self.slow = self.any_client() if not options.within and rng.random() < 0.6 else None
        self.drift = [0] * (options.clients + 1)

    def bring(self, who, message):
        """Adds an entry, and keeps what the receiver puts out for the net."""
        self.entries.append((who, message))
        self.heard += message != wire.TICK_MESSAGE
        out = self.clients[who].hear(message) if who else sent(self.server.hear(message))
        for put in out:
            if put[0] == wire.REQUEST:
                self.requests.append(put)
            elif put[0] == wire.GRANT:
                self.grants.append(put)
                self.all_grants.append(put)

    def any_client(self):
        return self.rng.randint(1, self.options.clients)

    def begin(self):
        rng, options = self.rng, self.options
        term = options.term or rng.choice([60, 61, 70, 121, 131, 245, 247, 301])
        skew = min(options.skew, (term - 1) // 2)
        addresses = options.addresses or rng.choice([1, 2, 2, 3, 4, options.clients + 1])
        self.skew, self.addresses, self.term = skew, addresses, term
        first = [(0, wire.settings(addresses, term, skew))]
        for who in range(1, options.clients + 1):
            other = not options.within and rng.random() < 0.03
            first.append((who, wire.settings(addresses, term + other, skew)))
            other = not options.within and rng.random() < 0.03
            first.append((who, wire.own_number(1 if other else rng.choice([who, who + 100, 0xFFFFFFFF - who]))))
        rng.shuffle(first)
        for who, message in first:
            if rng.random() < 0.98:
                self.bring(who, message)
            if rng.random() < 0.1:
                self.advance()
        for _ in range(options.clients * 2):
            self.give_nonce()

    def give_nonce(self):
        self.give_nonce_to(self.any_client())

    def give_nonce_to(self, who):
        if self.drawn and not self.options.within and self.rng.random() < 0.01:
            drawn = self.rng.choice(self.drawn)
        else:
            drawn = self.rng.getrandbits(64)
        self.drawn.append(drawn)
        self.bring(who, wire.nonce(drawn))

    def advance(self):
        """Time goes on by a random stretch."""
        self.pass_ticks(self.rng.choice([1, 1, 1, 2, 3, 4, 4, 8, 16, 30, 60]), 0)

    def pass_ticks(self, ticks, exact):
        """Ticks of everybody, in a mixed order, each client's clock drifting but that of `exact`."""
        rng, run = self.rng, [0] * ticks
        for who in range(1, self.options.clients + 1):
            if who == exact:
                drift = self.drift[who]
            elif self.options.within:
                drift = rng.randint(0, self.skew)
            else:
                drift = self.drift[who] + rng.randint(-self.skew - 1, self.skew + 1)
            moved = max(0, ticks + drift - self.drift[who])
            if who == self.slow and who != exact:
                moved //= 4
            self.drift[who] += moved - ticks
            run += [who] * moved
        if rng.random() < 0.5:
            rng.shuffle(run)
        for who in run:
            self.bring(who, wire.TICK_MESSAGE)

    def edges(self):
        """(who, tick) of the clocks at which something ends or is due."""
        server, found = self.server, []
        found += [(0, lease[2]) for lease in server.table.values()]
        if server.silent_until is not None:
            found += [(0, server.silent_until)] * 3
        for who in range(1, self.options.clients + 1):
            client = self.clients[who]
            if client.up and client.using:
                found += [(who, client.using[1]), (who, client.due)]
            if client.up and client.waiting and client.settings:
                found.append((who, client.waiting[1] + client.settings.term))
        return found

    def to_edge(self):
        """Time goes on to the last tick of something, or one further, and what is under way comes."""
        near = [(who, tick - self.party(who).clock + more) for who, tick in self.edges() for more in (0, 0, 1, -1)]
        near = [(who, ticks) for who, ticks in near if 0 <= ticks <= 800]
        if not near:
            return self.exchange()
        who, ticks = self.rng.choice(near)
        self.pass_ticks(ticks, who)
        for _ in range(self.rng.randint(1, 3)):
            if who == 0:
                self.deliver_request()
            elif not self.deliver_waiting(who):
                self.give_nonce_to(who)

    def party(self, who):
        return self.clients[who] if who else self.server

    def deliver_waiting(self, who):
        """The grant of the request that a client waits for, if the server sent one."""
        client = self.clients[who]
        if not client.waiting or client.number is None:
            return False
        head = wire.grant(client.number, client.waiting[0], 0)[:13]
        sent_ones = [message for message in self.all_grants if message[:13] == head]
        if sent_ones:
            self.bring(who, sent_ones[-1])
        return bool(sent_ones)

    def deliver_request(self):
        if not self.requests:
            return self.advance()
        at = self._late(len(self.requests))
        message = self.requests[at]
        if self.rng.random() < 0.8:
            del self.requests[at]
        self.bring(0, message)

    def deliver_grant(self):
        if not self.grants:
            return self.deliver_request()
        at = self._late(len(self.grants))
        message = self.grants[at]
        if self.rng.random() < 0.8:
            del self.grants[at]
        to = [who for who in range(1, self.options.clients + 1)
              if self.clients[who].number == wire.number(message[1:5])]
        who = self.any_client() if not to or self.rng.random() < 0.02 else to[0]
        self.bring(who, message)

    def _late(self, count):
        """Mostly the newest, at times any."""
        return count - 1 if self.rng.random() < 0.7 else self.rng.randrange(count)

    def lose(self):
        for pool in (self.requests, self.grants):
            if pool and self.rng.random() < 0.5:
                del pool[self.rng.randrange(len(pool))]

    def exchange(self):
        """A request and its grant at once, as on a quiet net."""
        self.deliver_request()
        self.deliver_grant()

    def client_power(self):
        who, rng = self.any_client(), self.rng
        client = self.clients[who]
        if client.up and rng.random() < 0.7:
            return self.bring(who, wire.CRASH_MESSAGE)
        clock = rng.choice([client.clock, client.clock, self.server.clock, 0, rng.randrange(1000),
                            rng.getrandbits(62)])
        self.bring(who, wire.restart(clock))
        self.drift[who] = 0

    def bring_up(self):
        """A party that is down restarts, so that a net is mostly at work."""
        if not self.server.up:
            return self.server_power()
        for who in range(1, self.options.clients + 1):
            if not self.clients[who].up:
                self.bring(who, wire.restart(self.clients[who].clock))
                self.drift[who] = 0
                return

    def server_power(self):
        rng = self.rng
        if self.server.up and rng.random() < 0.7:
            return self.bring(0, wire.CRASH_MESSAGE)
        clock = self.server.clock
        if not self.options.within and rng.random() < 0.3:
            clock = max(0, clock + rng.randint(-5, 200))
        self.bring(0, wire.restart(clock))

    def rubbish(self):
        """Any bytes, a message of the wrong party, a message a bit changed, or one at the edges."""
        rng = self.rng
        who = rng.randint(0, self.options.clients)
        choice = rng.randrange(5)
        if choice == 0:
            message = rng.randbytes(rng.randrange(20))
        elif choice == 1:
            message = bytes([rng.randrange(20)]) + rng.randbytes(rng.choice([0, 4, 8, 14]))
        elif choice == 2 and (self.requests or self.grants):
            message = rng.choice(self.requests + self.grants)
        elif choice == 3 and self.entries:
            message = bytearray(rng.choice(self.entries)[1] or b"\x01")
            message[rng.randrange(len(message))] ^= 1 << rng.randrange(8)
            message = bytes(message)
        else:
            message = self.edge()
        self.bring(who, message)

    def edge(self):
        rng = self.rng
        number, nonce = rng.choice([1, 2, 101]), rng.choice(self.drawn or [7])
        return rng.choice([
            wire.settings(self.addresses, self.term, self.skew),
            wire.settings(rng.choice([0, 1, 1024, 1025]), rng.choice([59, 60, 86400, 86401]),
                          rng.choice([0, 29, 30, 600, 601])),
            wire.own_number(number), wire.nonce(nonce), wire.TICK_MESSAGE, wire.CRASH_MESSAGE,
            wire.restart(rng.choice([0, 2**63 - 1, 2**63 - 2, 2**63, 2**64 - 1, rng.getrandbits(63)])),
            wire.request(number, nonce, self.addresses + rng.choice([-1, 0, 1])),
            wire.grant(number, nonce, self.addresses + rng.choice([-1, 0, 1])),
        ])

    def make(self):
        """Settings, own numbers and nonces, and then as many entries, ticks aside, as the options say."""
        self.begin()
        deeds = [(self.advance, 6), (self.give_nonce, 8), (self.deliver_request, 8), (self.deliver_grant, 8),
                 (self.exchange, 8), (self.lose, 2), (self.client_power, 1), (self.server_power, 1),
                 (self.to_edge, 10), (self.bring_up, 3)]
        names, weights = [deed for deed, _ in deeds], [weight for _, weight in deeds]
        self.heard = 0
        while self.heard < self.options.entries and len(self.entries) < MOST_ENTRIES:
            if self.rng.random() < self.options.garbage:
                self.rubbish()
            else:
                self.rng.choices(names, weights)[0]()
        return self.entries
