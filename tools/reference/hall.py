"""hall: a script on standard input, who uses what on standard output."""

import sys

import simulation


def main():
    printed, status = simulation.run(sys.stdin.buffer.read())
    sys.stdout.buffer.write(printed)
    sys.stdout.buffer.flush()
    return status


if __name__ == "__main__":
    sys.exit(main())
