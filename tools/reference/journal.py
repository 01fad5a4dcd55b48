"""The lease table on a device: records, recovery, appending, the change of rows."""

from wire import COUNT, COUNT_LIMIT, Refused

ROWS, PLACES, RECORD = 2, 4096, 28
DEVICE = ROWS * PLACES * RECORD
EMPTY_PLACE = bytes(RECORD)


def _table():
    entries = []
    for byte in range(256):
        for _ in range(8):
            byte = (byte >> 1) ^ (0x82F63B78 if byte & 1 else 0)
        entries.append(byte)
    return entries


TABLE = _table()


def crc32c(data):
    crc = 0xFFFFFFFF
    for byte in data:
        crc = (crc >> 8) ^ TABLE[(crc ^ byte) & 0xFF]
    return crc ^ 0xFFFFFFFF


def record(sequence, base, lease):
    address, client, expires = lease
    body = (sequence.to_bytes(8, "big") + base.to_bytes(2, "big") + address.to_bytes(2, "big")
            + client.to_bytes(4, "big") + expires.to_bytes(8, "big"))
    made = body + crc32c(body).to_bytes(4, "big")
    _fits[made] = True
    return made


# Sums are slow here and the same records are read again and again.
_fits = {EMPTY_PLACE: crc32c(EMPTY_PLACE[:24]) == 0}


def fits(place):
    known = _fits.get(place)
    if known is None:
        if len(_fits) > 500000:
            _fits.clear()
        known = crc32c(place[:24]) == int.from_bytes(place[24:], "big")
        _fits[place] = known
    return known


def place_at(device, row, place):
    start = (row * PLACES + place) * RECORD
    return bytes(device[start:start + RECORD])


def sequence_of(place):
    return int.from_bytes(place[0:8], "big")


def base_of(place):
    return int.from_bytes(place[8:10], "big")


def lease_of(place):
    return (int.from_bytes(place[10:12], "big"), int.from_bytes(place[12:16], "big"),
            int.from_bytes(place[16:24], "big"))


def read_row(device, row):
    """The records of a row up to the first that doesn't fit or isn't the next."""
    found = []
    for at in range(PLACES):
        place = place_at(device, row, at)
        if not fits(place):
            break
        if found and sequence_of(place) != sequence_of(found[-1]) + 1:
            break
        found.append(place)
    return found


def is_whole(records):
    return bool(records) and len(records) >= base_of(records[0])


def highest_sequence(device):
    """The highest sequence that fits, in either row and at any place; 0 if none does."""
    highest = 0
    for row in range(ROWS):
        for at in range(PLACES):
            place = place_at(device, row, at)
            if fits(place):
                highest = max(highest, sequence_of(place))
    return highest


class Journal:
    """Where the next record goes: row, place, sequence, and the row's base."""

    def __init__(self, device, row, place, sequence, base):
        self.device, self.row, self.place, self.sequence, self.base = device, row, place, sequence, base

    @staticmethod
    def begin(device):
        return Journal(device, 0, 0, highest_sequence(device) + 1, 0)

    def append(self, lease, live):
        """Writes a lease, after the `live` ones if a row is begun; gives (offset, record) in order."""
        if self.place < PLACES:
            return self._write([lease], self.row, self.place, self.sequence, self.base)
        first = highest_sequence(self.device) + 1
        return self._write(live + [lease], 1 - self.row, 0, first, len(live))

    def _write(self, leases, row, place, sequence, base):
        if sequence + len(leases) > COUNT_LIMIT:
            raise Refused(COUNT)
        writes = []
        for i, lease in enumerate(leases):
            made = record(sequence + i, base, lease)
            start = (row * PLACES + place + i) * RECORD
            self.device[start:start + RECORD] = made
            writes.append((start, made))
        self.row, self.place, self.base = row, place + len(leases), base
        self.sequence = sequence + len(leases)
        return writes


def recover(device):
    """A journal and the leases on the device by address; None where the table is lost."""
    assert len(device) == DEVICE
    rows = [(row, read_row(device, row)) for row in range(ROWS)]
    rows = [(row, records) for row, records in rows if records]
    rows.sort(key=lambda found: sequence_of(found[1][0]), reverse=True)
    for row, records in rows:
        if is_whole(records):
            table = {}
            for place in records:
                lease = lease_of(place)
                table[lease[0]] = lease
            last = sequence_of(records[-1])
            return Journal(device, row, len(records), last + 1, base_of(records[0])), table
    if not any(device):
        return Journal.begin(device), {}
    return None
