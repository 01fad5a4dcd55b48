"""Small scripts with what `hall` prints for them, worked out by hand: premises, ticks, two users, bad scripts.

premises.py [HALL]: the reference, or a program, beside them.
"""

import subprocess
import sys

import script
import simulation

STARTED = "house settings 4 60 5\nbox 1 settings 4 60 5\nbox 1 number 1\n"

# name, script as text, lines, status
CASES = [
    ("clock 5", STARTED + "box 1 tick 5", [], 0),
    ("clock 6", STARTED + "box 1 tick 6", ['premise: clocks'], 0),
    ("tick run", STARTED + "box 1 tick 6\nhouse tick 1", ['1: nobody'], 0),
    ("tick run broken by a nonce", STARTED + "box 1 tick 6\nbox 2 nonce 4\nhouse tick 1", ['premise: clocks','1: nobody'], 0),
    ("other client tick, unnamed, is tick", STARTED + "box 1 tick 6\nbox 9 tick\nhouse tick", ['1: nobody'], 0),
    ("server down not judged", STARTED + "house crash\nbox 1 tick 9\nhouse restart 9", [], 0),
    ("server down judged at return", STARTED + "house crash\nbox 1 tick 9\nhouse restart 3", ['premise: clocks'], 0),
    ("set back", "house tick 2\nhouse restart 1", ['1: nobody','2: nobody','premise: clocks'], 0),
    ("set back refused", "house tick 2\nhouse restart 9223372036854775808", ['1: nobody','2: nobody','house: fault 9','premise: count'], 0),
    ("client restart new stretch", STARTED + "box 1 tick 5\nbox 1 restart 500\nbox 1 tick 5", [], 0),
    ("client crash alone", STARTED + "box 1 tick 5\nbox 1 crash\nhouse tick 9\nbox 1 restart 5", ['%d: nobody'%i for i in range(1,10)], 0),
    ("before settings", "box 1 number 1\nbox 1 tick 3\nbox 2 nonce 1\nhouse settings 4 60 1", ['premise: clocks'], 0),
    ("message", STARTED + "house request 1 7 4", ['premise: message'], 0),
    ("message order first", STARTED + "box 1 tick 6\nhouse request 1 7 4", ['premise: clocks'], 0),
    ("message refused 7", "house request 1 7 4", ['house: fault 7','premise: message'], 0),
    ("nonce", "box 1 nonce 3\nbox 2 nonce 3", ['premise: nonce'], 0),
    ("number", "box 1 number 3\nbox 2 number 3", ['premise: number'], 0),
    ("number twice same", "box 1 number 3\nbox 1 number 3", ['box 1: fault 7'], 0),
    ("settings", "box 1 settings 4 60 5\nhouse settings 4 61 5", ['premise: settings'], 0),
    ("settings refused", "box 1 settings 4 60 5\nhouse settings 4 59 5", ['house: fault 7'], 0),
    ("count client", "box 1 restart 9223372036854775807\nbox 1 tick", ['box 1: fault 9','premise: count'], 0),
    ("house tick 9 prints none", "house restart 9223372036854775807\nhouse tick", ['house: fault 9','premise: count'], 0),
    ("down tick prints", "house crash\nhouse tick", ['1: nobody'], 0),
    ("bad kinds", "house bytes 02\nbox 64 bytes\nbox 64 bytes 0400", ['house: fault 1','box 64: fault 1','box 64: fault 1'], 0),
    ("two use", STARTED + "box 2 settings 4 60 5\nbox 2 number 2\nbox 1 nonce 1\nbox 2 nonce 2\nbox 1 grant 1 1 3\nbox 2 grant 2 2 3\nhouse tick", ['premise: message','two use 3: 1 and 2','1: 1 uses 3, 2 uses 3'], 1),
]

# bytes, lines, status
BAD = [
    (b"", [], 0),
    (b"\x41\x01\x04", ["script: fault 1 at byte 0"], 1),
    (b"\x00", ["script: fault 1 at byte 0"], 1),
    (b"\x00\x01\x04\x01\x02\x04", ["script: fault 1 at byte 3"], 1),
    (b"\x40\x01\x04", [], 0),
    (b"\x00\x00", ["house: fault 1"], 0),
]


def run(given, program):
    if program is None:
        return simulation.run(given)
    done = subprocess.run([program], input=given, capture_output=True)
    return done.stdout, done.returncode


def main():
    program = sys.argv[1] if len(sys.argv) > 1 else None
    cases = [(name, simulation.write_script(script.entries_of_text(text)), lines, status)
             for name, text, lines, status in CASES]
    cases += [(given.hex() or "empty", given, lines, status) for given, lines, status in BAD]
    bad = 0
    for name, given, lines, status in cases:
        printed = run(given, program)
        if printed != ("".join(line + "\n" for line in lines).encode(), status):
            bad += 1
            print("%s: %s, expected %s" % (name, printed, (lines, status)))
    print("%d cases, %d differ" % (len(cases), bad))
    return 1 if bad else 0


if __name__ == "__main__":
    sys.exit(main())
