"""Journals on a disk in memory beside an independent reference: what opening an image comes to and leaves, and what placing a journal over
it does, for images of both formats, with starts and migrations, whole, cut, damaged and crashed; and where the disk stops at each call, or
one call alone fails, whether every image that may be left is a journal with the list before or behind the batch, or with the journal that
was placed: the written bytes kept or lost, and torn with every kind of byte.

    python3 tests/journals.py REFERENCE [DOCUMENTS]

REFERENCE is the folder with the reference's `gen.py`. The calls are made by `measure journal`. Prints what was met, and fails where
something differs.
"""

import collections
import copy
import json
import os
import random
import subprocess
import sys

HERE = os.path.dirname(os.path.abspath(__file__))
PROGRAM = os.path.join(HERE, "..", "crates", "measure", "out", "measure")
# The two formats of a part, as the reference names them.
FIRST, SECOND = "r13", "r16"
IMAGES, HEADS, LENGTHS, SMALL, MIXED, LAST = 40, 72, 200, 24, 2, 2 ** 32 - 1
# An open and a closed gate, a slot's and a journal's open byte, both kinds of an entry, and bytes that mean nothing.
KINDS = b"\x47\0\x53\x54\1\2\x40\xff"


def load(reference):
    global gen, journal, DIGEST_OF, Disk, Graph, sound
    sys.dont_write_bytecode = True
    sys.path.insert(0, os.path.abspath(reference))
    import gen
    from oracle import journal
    from oracle.disk import Disk
    from oracle.graph import Graph, sound
    DIGEST_OF = journal.digest_of


class Rollout:
    """A document, and what the reference knows of it."""

    def __init__(self, rng):
        self.value = gen.valid_document(rng, True)
        self.static = gen.static_for(self.value)
        self.digest = DIGEST_OF(self.static.problem, self.static.plan)
        # It is the same each time that an image of this document is opened.
        journal.digest_of = lambda *_: self.digest
        self.zeros = [0] * len(self.static.items)

    def opened(self, image, migration):
        """What opening the image comes to, the start of the journal where it is one, and the bytes that are left."""
        disk = Disk(image)
        try:
            _, entries, start = journal.recover(disk, SECOND, self.static, migration)
        except journal.JournalFault as fault:
            words = fault.line.split(" ")
            if words[:2] == ["other", "plan"]:
                words[2:] = [word.split("/")[1] for word in words[2:]]
            return " ".join(words), None, bytes(disk.data)
        return " ".join(["open"] + words_of(entries)), start, bytes(disk.data)

    def stands(self, image, migration):
        """The start and the list of an image, None where it is no journal of this migration."""
        said, start, _ = self.opened(image, migration)
        return None if start is None else (start, said)

    def placed(self, image, migration):
        """What placing a journal that begins with nothing comes to, and the bytes that are left."""
        disk = Disk(image)
        try:
            found = journal.find_parts(image, SECOND)
        except journal.JournalFault as fault:
            return fault.line, image
        if found is None:
            journal.make_parts(disk, image, SECOND, self.digest, migration, self.zeros, self.static.op_total)
            return "placed", bytes(disk.data)
        journal.close_gates(disk, image, found, SECOND)
        head = journal.part_head(SECOND, self.digest, migration, self.zeros)
        journal.replace_part(disk, image, SECOND, found.slot, head, [], self.static.op_total)
        return "placed", bytes(disk.data)

    def grown(self, rng, form, migration):
        """A journal of this format with some batches, mostly legal; one of the second format has a start, too."""
        start = self.start(rng) if form == SECOND else self.zeros
        disk = Disk(b"\0")
        journal.make_parts(disk, bytes(disk.data), form, self.digest, migration, start, self.static.op_total)
        gen.append_list(rng, self.static, disk, form, Graph(self.static, start))
        return bytes(disk.data)

    def start(self, rng):
        starts = (gen.random_start(rng, self.static) for _ in range(20))
        return next((start for start in starts if sound(self.static, start) is None), self.zeros)

    def outcomes(self, cases):
        """Of each case: what was printed before the disk's line, its calls, and both images."""
        text = "\n".join([json.dumps(self.value)] + cases) + "\n"
        done = subprocess.run([PROGRAM, "journal"], input=text, capture_output=True, text=True, check=True)
        met, said = [], []
        for row in done.stdout.split("\n")[:-1]:
            if not row.startswith("calls "):
                said.append(row)
                continue
            words = row.split(" ")
            met.append((said, int(words[1]), bytes.fromhex(words[3]), bytes.fromhex(words[5])))
            said = []
        return met


def words_of(entries):
    return [f"{'b' if kind == 'begin' else 'd'}:{item}:{number}" for kind, item, number in entries]


def case(call, migration, image, trouble="-", batch=()):
    return " ".join([call, str(migration), image.hex() or "-", str(trouble)] + words_of(batch))


# What opening and placing come to.

def images_of(rng, rollout, migration):
    images = [gen.random_image(rng, rollout.static, SECOND, migration) for _ in range(IMAGES)]
    for form in (FIRST, SECOND):
        whole = rollout.grown(rng, form, migration)
        lengths = range(len(whole) + 1)
        images += [whole[:length] for length in (lengths if len(whole) <= LENGTHS else sorted(rng.sample(lengths, LENGTHS)))]
        images += [whole[:at] + b"\xff" + whole[at + 1:] for at in range(min(HEADS, len(whole)))]
    return images


def compared(rng, rollout, met):
    """How many images are opened, or placed over, in another way than the reference's."""
    migration = rng.choice((0, 0, 1, LAST))
    images = images_of(rng, rollout, migration)
    wanted = [(case("recover", migration, image), rollout.opened(image, migration)[::2]) for image in images]
    wanted += [(case("place", 7, image), rollout.placed(image, 7)) for image in images]
    wrong = 0
    for (line, (words, left)), (said, _, kept, synced) in zip(wanted, rollout.outcomes([line for line, _ in wanted])):
        met[words.split(" ")[0]] += 1
        if (said, kept, synced) != ([words], left, left):
            wrong += 1
            print(f"MISMATCH {json.dumps(rollout.value)}\n  {line}\n  wanted {words} {left.hex()}\n  met {said} {kept.hex()}")
    return wrong


# What a crash leaves.

def stopped(rng, rollout, met):
    """At each call of an opening with an append, and of a placing, every image that may be left."""
    wrong = 0
    for form, migration in ((None, 0), (FIRST, 0), (SECOND, rng.choice((0, 1, LAST)))):
        image = rng.choice((b"", b"\0", b"\1")) if form is None else rollout.grown(rng, form, migration)
        disk = Disk(image)
        try:
            graph, before, start = journal.recover(disk, SECOND, rollout.static, migration)
        except journal.JournalFault:
            continue
        batch = first_batch(graph)
        old, new = ((start, " ".join(["open"] + words_of(entries))) for entries in (before, before + batch))
        wrong += of_calls(rng, rollout, image, ("recover", migration, batch), {migration: old}, {migration: new}, met)
        wrong += of_calls(rng, rollout, image, ("place", 7, ()), {migration: old}, {7: (rollout.zeros, "open")}, met)
    return wrong


def first_batch(graph):
    """A few operations that may begin at once, and one of them done."""
    graph, batch = copy.deepcopy(graph), []
    for item in range(len(graph.settled)):
        if len(batch) < 3 and graph.take(("begin", item, graph.begun(item) + 1)):
            batch.append(("begin", item, graph.begun(item)))
    if batch:
        batch.append(("done",) + batch[0][1:])
    return batch


def of_calls(rng, rollout, image, made, old, new, met):
    """How many images that may be left at a call are neither the old journal nor the new one, or behind the last call not the new one."""
    call, migration, batch = made
    [(_, calls, _, _)] = rollout.outcomes([case(call, migration, image, "-", batch)])
    stops = [case(call, migration, image, stop, batch) for stop in range(calls + 1)]
    fails = [case(call, migration, image, f"!{stop}", batch) for stop in range(calls)]
    wrong, ranges, last = 0, [], image
    for nth, (said, _, kept, synced) in enumerate(rollout.outcomes(stops + fails)):
        left = [kept, synced]
        if nth <= calls:
            ranges = [] if kept == synced else ranges + written(last, kept)
            last = kept
            left += torn(rng, kept, synced, ranges)
        allowed = [new] if nth == calls else [old, new]
        for one in dict.fromkeys(left):
            met["left"] += 1
            if not any(rollout.stands(one, number) == state for each in allowed for number, state in each.items()):
                wrong += 1
                print(f"MISMATCH at call {nth} of {call}: {said} leaves {one.hex()}\n  {json.dumps(rollout.value)}\n  {image.hex()}")
    return wrong


def written(before, after):
    """The range that a write has changed, as a list of at most one."""
    length = max(len(before), len(after))
    differs = [at for at in range(length) if at >= len(before) or at >= len(after) or before[at] != after[at]]
    return [(differs[0], differs[-1] + 1)] if differs else []


def torn(rng, kept, synced, ranges):
    """Images of every length between both, whose bytes in these ranges are all of one kind, or each old, new or any. A single byte is each of all."""
    places = [at for first, end in ranges for at in range(first, end)]
    if not places:
        return []
    length = max(len(kept), len(synced))
    new, old = (one.ljust(length, b"\0") for one in (kept, synced))
    fills = [lambda at, fill=fill: fill for fill in (KINDS if len(places) > 1 else range(256))]
    fills += MIXED * [
        lambda at: rng.choice((new[at], old[at])),
        lambda at: rng.choice(KINDS),
        lambda at: rng.choice((new[at], rng.randrange(256))),
    ]
    return [filled(rng, new, places, fill, min(len(kept), len(synced))) for fill in fills]


def filled(rng, image, places, fill, shortest):
    """The image with other bytes at these places, and half of the time shorter."""
    made = bytearray(image)
    for at in places:
        made[at] = fill(at)
    return bytes(made[:rng.choice((len(image), rng.randint(shortest, len(image))))])


def main():
    load(sys.argv[1])
    rng, met, wrong = random.Random(1), collections.Counter(), 0
    for _ in range(int(sys.argv[2]) if len(sys.argv) > 2 else 12):
        rollout = Rollout(rng)
        wrong += compared(rng, rollout, met)
        if len(rollout.static.items) <= SMALL:
            wrong += stopped(rng, rollout, met)
    print(f"journals: {sum(met.values())} cases, {wrong} mismatches, by outcome {dict(sorted(met.items()))}")
    sys.exit(1 if wrong else 0)


if __name__ == "__main__":
    main()
