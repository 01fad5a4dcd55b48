"""Random scripts of a realistic net, by playing the reference parties while they are made."""

import argparse
import random
import sys

from net import Net, Options
from simulation import write_script


def random_options(rng):
    return Options(entries=rng.choice([10, 30, 60, 150]), clients=rng.choice([1, 2, 2, 3, 3, 3, 4, 4, 5, 8, 64]),
                   skew=rng.choice([0, 1, 3, 5, 29, 100]), within=rng.random() < 0.6,
                   garbage=rng.choice([0, 0, 0.005, 0.02, 0.2]))


def flood(rng):
    """Requests again and again, so that rows fill and change; leases live and expired."""
    net = Net(rng, Options(entries=0, clients=3, skew=5, addresses=rng.choice([2, 3, 4]), garbage=0))
    net.begin()
    for _ in range(8):
        net.give_nonce()
    net.advance()
    enough = rng.choice([4150, 8400])
    while len(net.all_grants) < enough and len(net.entries) < 3 * enough:
        if net.requests and rng.random() < 0.995:
            net.bring(0, rng.choice(net.requests))
        else:
            rng.choice([net.advance, net.to_edge, net.give_nonce, net.deliver_grant, net.server_power])()
        if not net.server.up:
            net.server_power()
    return net.entries


def mutate(rng, data):
    """Bytes flipped, cut out, put in, doubled."""
    data = bytearray(data)
    for _ in range(rng.choice([1, 1, 2, 5])):
        at = rng.randrange(len(data) + 1)
        choice = rng.randrange(5)
        if choice == 0 and at < len(data):
            data[at] ^= 1 << rng.randrange(8)
        elif choice == 1:
            del data[at:at + rng.randint(1, 20)]
        elif choice == 2:
            data[at:at] = rng.randbytes(rng.randint(1, 5))
        elif choice == 3:
            data[at:at] = data[max(0, at - 17):at]
        elif choice == 4 and rng.random() < 0.3:
            del data[at:]
    return bytes(data)


def main():
    parser = argparse.ArgumentParser(description=__doc__)
    parser.add_argument("--seed", type=int, default=1)
    parser.add_argument("--entries", type=int, default=300, help="how many, ticks aside")
    parser.add_argument("--clients", type=int, default=4, choices=range(1, 65), metavar="1..64")
    parser.add_argument("--skew", type=int, default=5)
    parser.add_argument("--beyond", action="store_true", help="clocks may leave the skew")
    parser.add_argument("--garbage", type=float, default=0.0, help="rate of malformed or unfit messages")
    parser.add_argument("--addresses", type=int)
    parser.add_argument("--term", type=int)
    parser.add_argument("--flood", action="store_true", help="fill the device's rows")
    parser.add_argument("--mutate", action="store_true", help="damage the script's bytes")
    given = parser.parse_args()
    rng = random.Random(given.seed)
    options = Options(given.entries, given.clients, given.skew, not given.beyond, given.garbage,
                      given.addresses, given.term)
    entries = flood(rng) if given.flood else Net(rng, options).make()
    script = write_script(entries)
    sys.stdout.buffer.write(mutate(rng, script) if given.mutate else script)


if __name__ == "__main__":
    main()
