"""Compares the serving of a guest with a reference: the answers' bytes, how many commands were carried out, and why it ended.

    python3 bench/agent_streams.py --compare REFERENCE [--count N]

The streams are drawn with a fixed seed: commands with the next numbers of their items, repeated, skipped and old ones, of the migration
that is held, of later ones, and late ones of earlier migrations; and at the end nothing, a command that is cut off, another kind, another
count, or noise. Two more have as many bytes as are read of a guest, and one less. REFERENCE is the folder with the reference's
`oracle/agent.py`.
"""

import argparse
import collections
import os
import random
import struct
import subprocess
import sys

from runs import PROGRAM

KIND, HEAD, MOST_RATES = 0x4D, 18, 16
LARGEST = 2 ** 32 - 1
ENDS = ("nothing", "cut", "kind", "count", "noise")
LONG = 100000000


def command(migration, item, number, scale, rates, count=None):
    head = struct.pack(">BIIIIB", KIND, migration, item, number, scale, len(rates) if count is None else count)
    return head + struct.pack(f">{len(rates)}Q", *rates)


def any_rates(rng):
    return [rng.choice((0, rng.randrange(100), rng.randrange(2 ** 64))) for _ in range(rng.choice((1, 2, rng.randint(1, MOST_RATES))))]


def any_number(rng, number):
    """Around the number that is held, or any."""
    return rng.choice((0, 1, number, min(number + 1, LARGEST), min(number + 2, LARGEST), rng.randint(0, number), rng.randint(0, LARGEST)))


def next_pair(rng, held):
    """Mostly the operation that follows; else one of a later migration, of an earlier one, or another number of the same."""
    migration, number = held
    if rng.random() < 0.5:
        return migration, min(number + 1, LARGEST)
    later = min(migration + rng.choice((1, 1, 1, rng.randint(1, 1000))), LARGEST)
    return rng.choice((later, rng.randint(0, migration), migration)), any_number(rng, number)


def is_next(held, asked):
    return asked == (held[0], held[1] + 1) or (held[0] < asked[0] and asked[1] > 0)


def commands(rng):
    """Whole commands over few items, and of how many migrations they are."""
    items = [rng.choice((rng.randrange(4), rng.randrange(2 ** 32))) for _ in range(rng.randint(1, 4))]
    held, written, migrations = {}, [], set()
    for _ in range(rng.choice((0, 1, rng.randint(2, 12), rng.randint(2, 12), rng.randint(4, 40), rng.randint(100, 300)))):
        item = rng.choice(items)
        before = held.get(item, (0, 0))
        asked = next_pair(rng, before)
        held[item] = asked if is_next(before, asked) else before
        migrations.add(asked[0])
        written.append(command(asked[0], item, asked[1], rng.choice((0, 1, rng.randrange(2 ** 32))), any_rates(rng)))
    return b"".join(written), len(migrations)


def other_byte(rng, usual):
    return rng.choice([byte for byte in range(256) if byte not in usual])


def ending(rng, end):
    whole = command(rng.randrange(4), rng.randrange(4), rng.randrange(4), 1, any_rates(rng))
    if end == "cut":
        return whole[:rng.choice((rng.randint(1, HEAD), rng.randrange(1, len(whole))))]
    if end == "kind":
        return bytes([other_byte(rng, (KIND,))]) + whole[1:rng.choice((1, len(whole)))]
    if end == "count":
        count = rng.choice((0, 17, other_byte(rng, range(1, MOST_RATES + 1))))
        return command(1, 1, 1, 1, any_rates(rng) if rng.random() < 0.5 else [], count=count)
    return rng.randbytes(rng.randint(1, 200)) if end == "noise" else b""


def streams(count):
    rng = random.Random(11)
    for at in range(count):
        written, migrations = commands(rng)
        yield written + ending(rng, ENDS[at % len(ENDS)]), migrations
    largest = command(1, 1, 1, 1, [1] * MOST_RATES)
    for length in (LONG - 1, LONG):
        yield (largest * (length // len(largest) + 1))[:length], 1


def expected(agent, features, data):
    answers, count, fault = agent.serve(agent.Agent(), data, features)
    if fault is None or fault == "long":
        return answers.hex(), count, fault or "none"
    return answers.hex(), count, f"frame {fault.what} {fault.byte}"


def served(data):
    lines = subprocess.run([PROGRAM, "agent"], input=data, capture_output=True, check=True).stdout.decode().split("\n")
    return lines[0], int(lines[1].removeprefix("commands ")), lines[2]


def compare(reference, count):
    sys.dont_write_bytecode = True
    sys.path.insert(0, os.path.abspath(reference))
    from oracle import agent, features

    met, carried, mixed = collections.Counter(), 0, 0
    without_terms = features.EVERYTHING.changed("-term")
    for data, migrations in streams(count):
        wanted, found = expected(agent, without_terms, data), served(data)
        if wanted != found:
            sys.exit(f"agent_streams: {len(data)} bytes: {data[:4096].hex()}\nend with {found}\nby the reference with {wanted}")
        met[wanted[2].rsplit(" ", 1)[0]] += 1
        carried += wanted[1]
        mixed += migrations > 1
    ends = ", ".join(f"{end} {met[end]}" for end in sorted(met))
    print(f"agent_streams: {sum(met.values())} streams, {mixed} of several migrations, {carried} commands: {ends}; 0 differences")
    if any(met[end] < count // 10 for end in ("none", "frame kind", "frame count")) or not met["long"]:
        sys.exit("agent_streams: too few of an end")
    if mixed < count // 3:
        sys.exit("agent_streams: too few streams of several migrations")


def main():
    words = argparse.ArgumentParser(description=__doc__, formatter_class=argparse.RawDescriptionHelpFormatter)
    words.add_argument("--compare", metavar="REFERENCE", required=True)
    words.add_argument("--count", type=int, default=1000)
    given = words.parse_args()
    compare(given.compare, given.count)


if __name__ == "__main__":
    main()
