"""Messages in bytes, streams of them, and the faults' numbers."""

REQUEST, GRANT, SETTINGS, TICK, CRASH, RESTART, NUMBER, NONCE = range(1, 9)
IN_USE, NO_ADDRESS, FAULT = 16, 17, 18

# The length of a message of each kind that a party hears, its kind included.
LENGTHS = {REQUEST: 15, GRANT: 15, SETTINGS: 9, TICK: 1, CRASH: 1, RESTART: 9, NUMBER: 5, NONCE: 9}
TO_SERVER = (REQUEST, SETTINGS, TICK, CRASH, RESTART)
TO_CLIENT = (GRANT, SETTINGS, TICK, CRASH, RESTART, NUMBER, NONCE)

MALFORMED, BAD_ADDRESS, NOT_OURS, NOT_WAITING, TOO_LATE, NONE_FREE, BAD_SETTINGS, LOST, COUNT = range(1, 10)

# Clocks and sequence numbers stay below this.
COUNT_LIMIT = 1 << 63

TICK_MESSAGE = bytes([TICK])
CRASH_MESSAGE = bytes([CRASH])


class Refused(Exception):
    """A message that is refused; it changes nothing."""

    def __init__(self, number):
        super().__init__(number)
        self.number = number


class Settings(tuple):
    """addresses, term, skew."""

    addresses = property(lambda self: self[0])
    term = property(lambda self: self[1])
    skew = property(lambda self: self[2])


def number(part):
    return int.from_bytes(part, "big")


def fault(cause):
    return bytes([FAULT, cause])


def request(client, nonce, preferred):
    return bytes([REQUEST]) + client.to_bytes(4, "big") + nonce.to_bytes(8, "big") + preferred.to_bytes(2, "big")


def grant(client, nonce, address):
    return bytes([GRANT]) + client.to_bytes(4, "big") + nonce.to_bytes(8, "big") + address.to_bytes(2, "big")


def settings(addresses, term, skew):
    return bytes([SETTINGS]) + addresses.to_bytes(2, "big") + term.to_bytes(4, "big") + skew.to_bytes(2, "big")


def restart(clock):
    return bytes([RESTART]) + clock.to_bytes(8, "big")


def own_number(client):
    return bytes([NUMBER]) + client.to_bytes(4, "big")


def nonce(drawn):
    return bytes([NONCE]) + drawn.to_bytes(8, "big")


def in_use(address, until):
    return bytes([IN_USE]) + address.to_bytes(2, "big") + until.to_bytes(8, "big")


def kind_of(message, kinds):
    """The kind of a message whose receiver knows `kinds`; else fault 1."""
    if not message or message[0] not in kinds or len(message) != LENGTHS[message[0]]:
        raise Refused(MALFORMED)
    return message[0]


def triple(message):
    """The three numbers of a request or a grant."""
    return number(message[1:5]), number(message[5:13]), number(message[13:15])


def read_settings(message, known):
    """The settings of a message, for a party that knows `known` so far."""
    found = Settings((number(message[1:3]), number(message[3:7]), number(message[7:9])))
    in_range = 1 <= found.addresses <= 1024 and 60 <= found.term <= 86400 and found.skew <= 600
    if known is not None or not in_range or 2 * found.skew >= found.term:
        raise Refused(BAD_SETTINGS)
    return found


def read_clock(message):
    clock = number(message[1:9])
    if clock >= COUNT_LIMIT:
        raise Refused(COUNT)
    return clock


def framed(message):
    return bytes([len(message)]) + message


def messages_of(stream):
    """The messages of a stream, and whether it ends within one."""
    found, at = [], 0
    while at < len(stream):
        end = at + 1 + stream[at]
        if end > len(stream):
            return found, True
        found.append(stream[at + 1:end])
        at = end
    return found, False
