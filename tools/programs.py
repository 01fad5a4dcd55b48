#!/usr/bin/env python3
"""A server and a client by the rules of docs/PROTOCOL.md, written apart from the crates, for expected output.

`tools/programs.py write` writes the runs of the gate: stdin, stdout, args and data/ of crates/house and crates/box_.
"""
import os
import struct
import sys

DEVICE_BYTES, ROW, PLACES, PLACE = 229_376, 4096, 8192, 28
LIMIT = 1 << 63


def crc32c(data):
    state = 0xFFFFFFFF
    for byte in data:
        state ^= byte
        for _ in range(8):
            state = (state >> 1) ^ 0x82F63B78 if state & 1 else state >> 1
    return state ^ 0xFFFFFFFF


def frame(body):
    return bytes([len(body)]) + body


def request(client, nonce, preferred):
    return frame(struct.pack(">BIQH", 1, client, nonce, preferred))


def grant(client, nonce, address):
    return frame(struct.pack(">BIQH", 2, client, nonce, address))


def settings(addresses, term, skew):
    return frame(struct.pack(">BHIH", 3, addresses, term, skew))


TICK, CRASH, NONE = frame(b"\x04"), frame(b"\x05"), frame(b"\x11")


def restart(clock):
    return frame(struct.pack(">BQ", 6, clock))


def own(client):
    return frame(struct.pack(">BI", 7, client))


def nonce(number):
    return frame(struct.pack(">BQ", 8, number))


def in_use(address, until):
    return frame(struct.pack(">BHQ", 16, address, until))


def fault(number):
    return frame(bytes([18, number]))


def record(sequence, base, address, client, expires):
    body = struct.pack(">QHHIQ", sequence, base, address, client, expires)
    return body + struct.pack(">I", crc32c(body))


def bad_settings(addresses, term, skew):
    return not (1 <= addresses <= 1024 and 60 <= term <= 86_400 and skew <= 600 and 2 * skew < term)


class Party:
    """What server and client share: how a stream is cut into messages."""

    def stream(self, data):
        out, at = b"", 0
        while at < len(data):
            size = data[at]
            if at + 1 + size > len(data):
                return out + fault(1)
            out += self.hear(data[at + 1 : at + 1 + size])
            at += 1 + size
        return out


class Server(Party):
    def __init__(self, device):
        self.device = bytearray(device)
        self.settings, self.clock, self.up = None, 0, True
        self.table, self.silent = {}, None
        self.read()

    def at(self, place):
        body = bytes(self.device[place * PLACE : place * PLACE + PLACE])
        if crc32c(body[:24]) != struct.unpack(">I", body[24:])[0]:
            return None
        return struct.unpack(">QHHIQ", body[:24])

    def read(self):
        self.highest = 0
        rows = []
        for row in range(2):
            found = [self.at(row * ROW + k) for k in range(ROW)]
            self.highest = max([self.highest] + [r[0] for r in found if r])
            count = 0
            while count < ROW and found[count] and found[count][0] == found[0][0] + count:
                count += 1
            rows.append(found[:count])
        order = sorted((r for r in range(2) if rows[r]), key=lambda r: -rows[r][0][0])
        for row in order:
            if len(rows[row]) >= rows[row][0][1]:
                self.row, self.count = row, len(rows[row])
                self.first, self.base = rows[row][0][0], rows[row][0][1]
                return rows[row]
        self.row, self.count = 1, ROW
        return [] if not any(self.device) else None

    def load(self):
        addresses, term, skew = self.settings
        rows = self.read()
        self.table, self.silent = {}, None
        if rows is None:
            self.silent = self.clock + term + 2 * skew
            return fault(8)
        for _, _, address, client, expires in rows:
            if address < addresses:
                self.table[address] = (client, expires)
        return b""

    def live(self, address):
        return address in self.table and self.clock <= self.table[address][1]

    def hear(self, m):
        kind, body = (m[0], m[1:]) if m else (0, b"")
        if len(m) != {1: 15, 3: 9, 4: 1, 5: 1, 6: 9}.get(kind):
            return fault(1)
        if kind == 1:
            return self.request(*struct.unpack(">IQH", body))
        if kind == 3:
            wanted = struct.unpack(">HIH", body)
            if self.settings or bad_settings(*wanted):
                return fault(7)
            self.settings = wanted
            return self.load() if self.up else b""
        if kind == 4:
            if self.clock + 1 >= LIMIT:
                return fault(9)
            self.clock += 1
            if self.up and self.silent is not None and self.clock > self.silent:
                self.silent, self.table = None, {}
            return b""
        if kind == 5:
            self.up, self.table, self.silent = False, {}, None
            return b""
        (clock,) = struct.unpack(">Q", body)
        if clock >= LIMIT:
            return fault(9)
        self.clock, self.up = clock, True
        return self.load() if self.settings else b""

    def request(self, client, number, preferred):
        if not self.settings:
            return fault(7)
        addresses, term, skew = self.settings
        if preferred > addresses:
            return fault(2)
        if not self.up:
            return b""
        if self.silent is not None:
            return fault(8)
        chosen = None
        for address in range(addresses):
            if self.live(address) and self.table[address][0] == client:
                chosen = address
                break
        if chosen is None and preferred < addresses and not self.live(preferred):
            chosen = preferred
        if chosen is None:
            free = [a for a in range(addresses) if not self.live(a)]
            if not free:
                return fault(6)
            chosen = free[0]
        lease = (client, self.clock + term + skew)
        if not self.append(chosen, lease):
            return fault(9)
        self.table[chosen] = lease
        return grant(client, number, chosen)

    def append(self, address, lease):
        leases = [(address, lease)]
        if self.count == ROW:
            kept = [(a, self.table[a]) for a in sorted(self.table) if self.live(a)]
            if self.highest + 1 + len(kept) >= LIMIT:
                return False
            self.row, self.count, self.first, self.base = 1 - self.row, 0, self.highest + 1, len(kept)
            leases = kept + leases
        elif self.first + self.count >= LIMIT:
            return False
        for a, (client, expires) in leases:
            place, sequence = self.row * ROW + self.count, self.first + self.count
            self.device[place * PLACE : place * PLACE + PLACE] = record(sequence, self.base, a, client, expires)
            self.count += 1
            self.highest = max(self.highest, sequence)
        return True


class Client(Party):
    def __init__(self):
        self.settings, self.own, self.clock, self.nonces = None, None, 0, []
        self.start(0)

    def start(self, clock):
        self.clock, self.up, self.waiting, self.using, self.last = clock, True, None, None, None
        self.due, self.pause = clock, 4

    def hear(self, m):
        out = self.receive(m)
        if out[1:2] == b"\x12":
            return out
        return out + self.ask()

    def ask(self):
        if not (self.up and self.settings and self.own is not None and self.clock >= self.due and self.nonces):
            return b""
        number = self.nonces.pop(0)
        self.waiting = (number, self.clock)
        if self.using:
            self.due = self.clock + max(-(-(self.using[1] - self.clock) // 2), 60)
        else:
            self.due, self.pause = self.clock + self.pause, min(64, 2 * self.pause)
        return request(self.own, number, self.settings[0] if self.last is None else self.last)

    def receive(self, m):
        kind, body = (m[0], m[1:]) if m else (0, b"")
        if len(m) != {2: 15, 3: 9, 4: 1, 5: 1, 6: 9, 7: 5, 8: 9}.get(kind):
            return fault(1)
        if kind == 2:
            return self.grant(*struct.unpack(">IQH", body))
        if kind == 3:
            wanted = struct.unpack(">HIH", body)
            if self.settings or bad_settings(*wanted):
                return fault(7)
            self.settings = wanted
        elif kind == 4:
            return self.tick()
        elif kind == 5:
            had = self.up and self.using
            if self.up:
                self.start(self.clock)
                self.up = False
            return NONE if had else b""
        elif kind == 6:
            (clock,) = struct.unpack(">Q", body)
            if clock >= LIMIT:
                return fault(9)
            had = self.using
            self.start(clock)
            return NONE if had else b""
        elif kind == 7:
            if self.own is not None:
                return fault(7)
            (self.own,) = struct.unpack(">I", body)
        else:
            self.nonces.append(struct.unpack(">Q", body)[0])
        return b""

    def tick(self):
        if not self.up:
            return b""
        if self.clock + 1 >= LIMIT:
            return fault(9)
        self.clock += 1
        if self.using and self.clock > self.using[1]:
            self.using, self.due, self.pause = None, self.clock, 4
            return NONE
        return b""

    def grant(self, client, number, address):
        if not self.settings:
            return fault(7)
        if address >= self.settings[0]:
            return fault(2)
        if not self.up:
            return b""
        if self.own is None or client != self.own:
            return fault(3)
        if not self.waiting or self.waiting[0] != number:
            return fault(4)
        asked, term = self.waiting[1], self.settings[1]
        if self.clock > asked + term:
            return fault(5)
        left = self.using and self.using[0] != address
        self.using, self.waiting, self.last = (address, asked + term), None, address
        self.due = asked + max(-(-term // 2), 60)
        return (NONE if left else b"") + in_use(address, asked + term)


# THE RUNS OF THE GATE


def device_of_earlier_run():
    """A device that a run left: an older row that is full, and a newer one with base 2 that is nearly so."""
    device = bytearray(DEVICE_BYTES)
    for k in range(ROW):
        device[k * PLACE : k * PLACE + PLACE] = record(1 + k, 0, k % 3, 100 + k % 3, 10 + k)
    newer = [(0, 100, 900), (1, 101, 1000), (3, 77, 1100)] + [(1, 101, 1200)] * 4069
    for k, (address, client, expires) in enumerate(newer):
        at = (ROW + k) * PLACE
        device[at : at + PLACE] = record(4097 + k, 2, address, client, expires)
    return bytes(device)


def house_input():
    """Settings, requests, renewals, a crash and a restart, malformed messages, and an end within a message."""
    s = TICK * 3 + request(5, 1, 0) + settings(0, 120, 5) + settings(6, 120, 5) + settings(6, 120, 5)
    s += restart(950)
    # the leases of the earlier run are live, but for the first; a client keeps its own
    s += request(101, 11, 4) + request(77, 12, 6) + request(5, 13, 1) + request(6, 14, 6) + request(7, 15, 5)
    s += request(8, 16, 0) + request(9, 17, 6) + request(10, 18, 7)
    # malformed: no bytes, unknown kinds, too short, too long, a client's own messages
    s += frame(b"") + frame(b"\x00") + frame(b"\xff" * 255) + frame(b"\x01\x02") + frame(b"\x04\x00")
    s += grant(5, 13, 0) + own(5) + nonce(9) + in_use(1, 2) + NONE + fault(3) + restart(1 << 63)
    # while it is down nothing is lent, and malformed messages have their faults
    s += TICK * 100 + request(5, 21, 6) + CRASH + request(5, 22, 6) + request(5, 23, 99) + TICK * 10 + CRASH + frame(b"\x63")
    s += restart(1061) + request(5, 24, 6) + request(6, 25, 6)
    # 126 ticks later only what was renewed is live
    s += TICK * 126 + request(9, 31, 2) + request(101, 32, 6) + request(10, 33, 0) + request(11, 34, 1)
    # enough renewals to fill the row: the other is begun anew, and read back after a crash that nobody announced
    s += b"".join(request(9, 1000 + k, 6) for k in range(20)) + TICK + request(12, 41, 6)
    s += restart(1200) + request(13, 42, 6) + request(11, 43, 6) + request(12, 44, 6)
    return s + TICK + request(14, 45, 6)[:9]


def box_input():
    """An address is asked for, used, renewed, lost and had again; crashes, malformed messages, an end within a message."""
    s = TICK * 2 + grant(7, 1, 0) + request(7, 1, 0) + nonce(501) + settings(3, 120, 60) + settings(4, 121, 10)
    s += own(7) + own(8) + settings(4, 120, 10) + TICK * 5 + nonce(502)
    # another's grant, one that does not wait, an address that is not of the pool, then the right one, twice
    s += TICK * 4 + nonce(503) + grant(8, 502, 1) + grant(7, 501, 1) + grant(7, 502, 4) + nonce(504) + TICK * 3
    s += grant(7, 502, 1) + grant(7, 503, 1) + grant(7, 503, 1)
    s += frame(b"") + frame(b"\x09") + frame(b"\x02" * 14) + frame(b"\x00" * 200) + frame(b"\x05\x05") + fault(1) + NONE
    # a renewal at 60 that goes unheard, and its address expires; it asks at once, and gets another
    s += TICK * 70 + nonce(505) + TICK * 60 + nonce(506) + TICK + grant(7, 505, 2) + grant(7, 506, 2) + nonce(507)
    s += TICK * 80 + grant(7, 507, 0) + TICK * 5
    # a crash; while it is down its clock stands; after the restart it asks at once, with pauses that grow
    s += CRASH + CRASH + TICK * 9 + grant(7, 507, 0) + grant(7, 507, 9) + nonce(508) + restart(40) + b"".join(nonce(600 + k) for k in range(6))
    s += TICK * 200 + grant(7, 605, 3) + restart(5) + TICK * 3 + nonce(700) + TICK * 130 + grant(7, 700, 1) + grant(7, 700, 1) + restart(1 << 63)
    s += restart((1 << 63) - 3) + TICK * 4
    return s + b"\x0f\x02\x00"


def write():
    root = os.path.join(os.path.dirname(os.path.abspath(__file__)), "..", "crates")
    device, house, box = device_of_earlier_run(), house_input(), box_input()
    os.makedirs(os.path.join(root, "house", "data"), exist_ok=True)
    for path, content in [
        ("house/data/device", device),
        ("house/args", b"device\n"),
        ("house/stdin", house),
        ("house/stdout", Server(device).stream(house)),
        ("box_/stdin", box),
        ("box_/stdout", Client().stream(box)),
    ]:
        with open(os.path.join(root, path), "wb") as f:
            f.write(content)


if __name__ == "__main__":
    if sys.argv[1:] != ["write"]:
        sys.exit(__doc__)
    write()
