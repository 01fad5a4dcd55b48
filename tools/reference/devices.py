"""Random device images: new, filled, with rows changed, cut, torn, damaged."""

from journal import DEVICE, PLACES, RECORD, Journal, fits, place_at, record, recover, sequence_of

LIMIT = 1 << 63


def random_lease(rng, addresses=6):
    return (rng.randrange(addresses), rng.choice([1, 2, 3, 4, 101, 102, 103]), rng.choice([0, 60, 100, 300, 5000]))


def filled(rng, count):
    """A device after `count` grants to a server that ticks now and then."""
    device = bytearray(DEVICE)
    journal = Journal.begin(device)
    if rng.random() < 0.3:
        # the next number is at most a few below the limit, or at it
        journal.sequence = rng.choice([2, 1000, LIMIT - count - rng.randrange(6)])
    for _ in range(count):
        live = sorted({lease[0]: lease for lease in (random_lease(rng) for _ in range(rng.randrange(4)))}.values())
        append(journal, random_lease(rng), live)
    return device, journal


def append(journal, lease, live):
    """As the journal appends, but numbers above the limit are written too."""
    if journal.place == PLACES:
        journal.row, journal.place, journal.base = 1 - journal.row, 0, len(live)
        leases = live + [lease]
    else:
        leases = [lease]
    for one in leases:
        start = (journal.row * PLACES + journal.place) * RECORD
        journal.device[start:start + RECORD] = record(journal.sequence, journal.base, one)
        journal.place, journal.sequence = journal.place + 1, journal.sequence + 1


def hurt(rng, device, journal):
    """A torn or damaged place near where the journal writes, at a row's begin, or anywhere."""
    place = rng.choice([journal.place - 1, journal.place, journal.place + 1, 0, rng.randrange(PLACES)])
    row = rng.choice([journal.row, journal.row, 1 - journal.row])
    start = (row * PLACES + min(max(place, 0), PLACES - 1)) * RECORD
    choice = rng.randrange(4)
    if choice == 0:
        device[start:start + RECORD] = rng.randbytes(RECORD)
    elif choice == 1:
        device[start + rng.randrange(RECORD)] ^= 1 << rng.randrange(8)
    elif choice == 2:
        device[start:start + RECORD] = bytes(RECORD)
    else:
        # a record that fits, with a number from elsewhere
        number = max(0, journal.sequence + rng.choice([-2, -1, 0, 1, 5, 5000]))
        device[start:start + RECORD] = record(number, rng.choice([0, 1, 2, 3, 4096, 5000]), random_lease(rng))


def cut_switch(rng):
    """A full row, and the other begun with some of the records that it begins with; at times one torn."""
    device, journal = filled(rng, rng.choice([PLACES, PLACES, 2 * PLACES]))
    base = rng.randrange(1, 5)
    row, written = 1 - journal.row, rng.randrange(0, base + 2)
    first = journal.sequence + rng.choice([0, 0, 0, 1, 7])
    for i in range(written):
        start = (row * PLACES + i) * RECORD
        device[start:start + RECORD] = record(first + i, base, (i, rng.choice([1, 2, 101]), rng.choice([60, 5000])))
    if rng.random() < 0.4:
        start = (row * PLACES + written) * RECORD
        device[start:start + RECORD] = rng.randbytes(RECORD)
    return device


def has_stranger(device):
    """Behind the end of the row in use a record fits whose number is above that row's.

    No run that keeps the premises leaves that. It is overwritten before the rows change, and then it can be
    read two ways what "above every sequence on the device" means: those of that moment, as here, or also
    those that were seen at recovery.
    """
    found = recover(device)
    if found is None:
        return False
    journal = found[0]
    behind = [place_at(device, journal.row, at) for at in range(journal.place, PLACES)]
    return any(fits(place) and sequence_of(place) >= journal.sequence for place in behind)


def random_device(rng):
    while True:
        device = any_device(rng)
        if not has_stranger(device):
            return device


def any_device(rng):
    choice = rng.random()
    if choice < 0.2:
        return cut_switch(rng)
    if choice < 0.4:
        return bytearray(DEVICE)
    count = rng.choice([1, 3, 20, 4090, 4094, 4095, 4096, 4097, 4098, 8190, 8191, 8192, 8195, 8200])
    if choice < 0.55:
        count = rng.randrange(1, 30)
    device, journal = filled(rng, count)
    for _ in range(rng.choice([0, 0, 1, 1, 2, 4])):
        hurt(rng, device, journal)
    if rng.random() < 0.05:
        device[rng.randrange(DEVICE)] ^= 1
    return device
