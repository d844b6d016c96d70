"""Journals as bytes: what is to stand in one, and what does.

A journal is 54, two slots, and the parts that these name. A slot is a gate, 53 where it is open, where its part begins, and how long it is, in
eight bytes each. A part of the second format, of which the length is told 2^62 larger, has 32 bytes of a digest, the migration, how many items
there are, how much of each is settled at the start, how many entries the list has, these, and then batches: a gate, 47 where it is open, a
count and as many entries, up to a gate that is closed. An entry is 1 for begun or 2 for done, the item, and the number. All numbers but the
slots' have four bytes. A part of the first format has neither migration nor start.
"""

import hashlib
import json
import struct

PARTS, SLOT, WIDE = 35, 17, 2 ** 62
BEGIN, DONE = 1, 2


def text_of(value):
    return json.dumps(value, sort_keys=True, separators=(",", ":"), ensure_ascii=False)


def digest_of(document):
    """That of a document in its canonical form, as `plan` writes it."""
    return hashlib.sha256(f"{text_of(document['problem'])}\n{text_of(document['plan'])}".encode()).digest()


def rows(entries):
    return b"".join(struct.pack(">BII", *entry) for entry in entries)


def batch(entries):
    return b"\x47" + struct.pack(">I", len(entries)) + rows(entries)


def part(digest, start, kept=(), batches=(), migration=0):
    """The bytes of a part of the second format, with a closed gate behind all."""
    head = digest + struct.pack(f">II{len(start)}I", migration, len(start), *start)
    return head + struct.pack(">I", len(kept)) + rows(kept) + b"".join(map(batch, batches)) + b"\0"


def size_of(items, operations):
    """The length of a part, with room for each operation to be begun and done in a batch of its own."""
    return 45 + 4 * items + 28 * operations


def slot(at, size, is_open=True):
    return (b"\x53" if is_open else b"\0") + struct.pack(">QQ", at, WIDE + size)


def live(image):
    """Where the part of the first slot that is open begins, and whether it is of the second format."""
    for at in (1, 1 + SLOT):
        gate, begins, size = struct.unpack_from(">BQQ", image, at)
        if gate == 0x53:
            return begins, size >= WIDE
    raise ValueError("no slot is open")


def entries_in(image):
    """The list of a journal that is whole; none where no journal was made yet."""
    if len(image) < 2 or image[0] != 0x54:
        return []
    at, is_wide = live(image)
    at += 32
    if is_wide:
        at += 8 + 4 * struct.unpack_from(">I", image, at + 4)[0]
    found = entries_at(image, at)
    at += 4 + 9 * len(found)
    while image[at] == 0x47:
        more = entries_at(image, at + 1)
        found += more
        at += 5 + 9 * len(more)
    return found


def count_of(image):
    """How many entries an image has that is read while it grows; None where it breaks off."""
    try:
        return len(entries_in(image)) if image else 0
    except (IndexError, ValueError, struct.error):
        return None


def kept_in(image):
    """What a journal of the second format keeps that is whole: digest, migration, start and list."""
    at, _ = live(image)
    migration, count = struct.unpack_from(">II", image, at + 32)
    return image[at:at + 32], migration, list(struct.unpack_from(f">{count}I", image, at + 40)), entries_in(image)


def entries_at(image, at):
    count, = struct.unpack_from(">I", image, at)
    return [struct.unpack_from(">BII", image, at + 4 + 9 * nth) for nth in range(count)]
