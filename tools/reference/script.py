"""Scripts as text, one entry a line, and as bytes.

script.py < TEXT > BYTES      script.py --text < BYTES > TEXT
"""

import sys

import wire
from simulation import read_script, write_script

# The words of a line, with what makes a message of its numbers and how many it takes.
MAKERS = {
    "settings": (wire.settings, 3), "number": (wire.own_number, 1), "nonce": (wire.nonce, 1),
    "request": (wire.request, 3), "grant": (wire.grant, 3), "restart": (wire.restart, 1),
}
NAMES = {wire.REQUEST: "request", wire.GRANT: "grant", wire.SETTINGS: "settings", wire.TICK: "tick",
         wire.CRASH: "crash", wire.RESTART: "restart", wire.NUMBER: "number", wire.NONCE: "nonce"}
FIELDS = {wire.REQUEST: (4, 8, 2), wire.GRANT: (4, 8, 2), wire.SETTINGS: (2, 4, 2), wire.TICK: (),
          wire.CRASH: (), wire.RESTART: (8,), wire.NUMBER: (4,), wire.NONCE: (8,)}


def line_entries(line):
    words = line.split("#")[0].split()
    if not words:
        return []
    who, words = (0, words[1:]) if words[0] == "house" else (int(words[1]), words[2:])
    name, numbers = words[0], words[1:]
    if name == "tick":
        return [(who, wire.TICK_MESSAGE)] * (int(numbers[0]) if numbers else 1)
    if name == "crash":
        return [(who, wire.CRASH_MESSAGE)]
    if name == "bytes":
        return [(who, bytes.fromhex("".join(numbers)))]
    make, count = MAKERS[name]
    if len(numbers) != count:
        raise ValueError("%s takes %d numbers: %s" % (name, count, line))
    return [(who, make(*map(int, numbers)))]


def entries_of_text(text):
    return [entry for line in text.split("\n") for entry in line_entries(line)]


def message_said(message):
    kind = message[0] if message else None
    if kind not in NAMES or len(message) != wire.LENGTHS[kind]:
        return "bytes " + message.hex()
    words, at = [NAMES[kind]], 1
    for width in FIELDS[kind]:
        words.append(str(wire.number(message[at:at + width])))
        at += width
    return " ".join(words)


def text_of_entries(entries):
    """One line an entry, but for a run of ticks of one party."""
    lines, ticks = [], 0
    for i, (who, message) in enumerate(entries):
        said = ("box %d " % who if who else "house ") + message_said(message)
        ticks += message == wire.TICK_MESSAGE
        if message == wire.TICK_MESSAGE and i + 1 < len(entries) and entries[i + 1] == (who, message):
            continue
        lines.append(said + (" %d" % ticks if ticks > 1 else ""))
        ticks = 0
    return "".join(line + "\n" for line in lines)


def main():
    if sys.argv[1:] == ["--text"]:
        sys.stdout.write(text_of_entries(read_script(sys.stdin.buffer.read())))
    else:
        sys.stdout.buffer.write(write_script(entries_of_text(sys.stdin.read())))


if __name__ == "__main__":
    main()
