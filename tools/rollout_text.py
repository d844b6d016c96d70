"""What came of a rollout, read: what `swanroll explain` says of its operations, and when each of them was begun and settled, by a log, a journal or a script."""

import json
import re
import struct

NAME = r'"(?:[^"\\]|\\.)*"'
HEAD = re.compile(r"items (\d+), operations (\d+), stages (\d+), scale (\d+)")
ITEM = re.compile(rf"item (\d+): (flow|entry) .*, operations (\d+)")
OPERATION = re.compile(r"item (\d+) operation (\d+): to stage (\d+), (install|remove|rates ([0-9 ]+) to ([0-9 ]+)), chain (\d+)(.*)")
NEED = re.compile(r", needs item (\d+) at stage (\d+)")
LOGGED = re.compile(r"(\d+) (?:(begin|done) (\d+) (\d+)|start (\d+))")
ACT = re.compile(r"(\d+) (round|send|hand|all|start)\b[^:]*: (?:item (\d+) (?:operation|held) (\d+)|.*)")
OPEN_JOURNAL, OPEN_SLOT, OPEN_BATCH, SECOND = 0x54, 0x53, 0x47, 1 << 62


class Unread(Exception):
    """Why a text isn't what it should be."""


class Operation:
    """One operation: its item and number, the stage that it leads to, what it does, and the items and stages that it needs."""

    def __init__(self, item, number, stage, what, rates, needs):
        self.item, self.number, self.stage, self.what, self.rates, self.needs = item, number, stage, what, rates, needs
        self.begun = self.settled = None


def numbers(words):
    return list(map(int, words.split()))


def operation_of(found):
    item, number, stage, what, old, new, _, needs = found.groups()
    rates = (numbers(old), numbers(new)) if old else None
    return Operation(int(item), int(number), int(stage), "rates" if rates else what, rates, [tuple(map(int, need)) for need in NEED.findall(needs)])


class Explained:
    """The operations of a document, in the order of items."""

    def __init__(self, text):
        head, *lines = text.removesuffix("\n").split("\n")
        found = HEAD.fullmatch(head)
        if not found:
            raise Unread(head)
        self.items, count, self.stages, self.scale = map(int, found.groups())
        self.operations = {}
        for line in lines:
            said = OPERATION.fullmatch(line)
            if said:
                one = operation_of(said)
                self.operations[one.item, one.number] = one
            elif not ITEM.fullmatch(line):
                raise Unread(line)
        if len(self.operations) != count:
            raise Unread(f"{len(self.operations)} operations of {count}")


class Course:
    """When each operation was begun and settled, in milliseconds or, where only the order is known, in entries or acts. `starts` are the moments at which a run was
    started behind another; `before` are the operations that were settled before anything that is told."""

    def __init__(self, unit):
        self.unit, self.events, self.starts = unit, [], []

    def add(self, moment, what, item, number):
        self.events.append((moment, what, item, number))


def course_of_log(text):
    """A log: a line that was cut off at the end is passed over, and so is the time between two runs."""
    course, first, gap, last = Course("ms"), None, 0, None
    for number, line in enumerate(text.split("\n")[:-1], 1):
        found = LOGGED.fullmatch(line)
        if not found:
            raise Unread(f"line {number} is none of a log")
        moment, what, item, operation, count = found.groups()
        moment = int(moment)
        if count is not None and last is not None:
            gap += max(0, moment - last)
            course.starts.append(moment - gap - first)
        first = moment if first is None else first
        last = moment
        if what:
            course.add(max(0, moment - gap - first), what, int(item), int(operation))
    return course


def number_at(image, at, size):
    piece = image[at:at + size]
    return int.from_bytes(piece.ljust(size, b"\0"), "big")


def live_slot(image):
    """Where the part of a journal stands, its size, and whether it is of the second format."""
    for side in (1, 18):
        start, field = number_at(image, side + 1, 8), number_at(image, side + 9, 8)
        if image[side:side + 1] == bytes([OPEN_SLOT]) and 35 <= start < SECOND:
            return start, field % SECOND, field >= SECOND
    raise Unread("no part of the journal is open")


def rows_at(part, at):
    count = number_at(part, at, 4)
    if at + 4 + 9 * count > len(part):
        return None
    return [struct.unpack_from(">BII", part, at + 4 + 9 * place) for place in range(count)]


def course_of_journal(image):
    """A journal's list, in its order: what a run appends meanwhile is seen in whole batches."""
    if image[:1] != bytes([OPEN_JOURNAL]):
        raise Unread("no journal")
    start, size, second = live_slot(image)
    part = image[start:start + size]
    at = 40 + 4 * number_at(part, 36, 4) if second else 32
    course, rows, settled = Course("entries"), rows_at(part, at), numbers_of(part) if second else []
    while rows is not None:
        for kind, item, number in rows:
            course.add(len(course.events), {1: "begin", 2: "done"}.get(kind, "none"), item, number)
        at += 4 + 9 * len(rows)
        rows = rows_at(part, at + 1) if part[at:at + 1] == bytes([OPEN_BATCH]) else None
        at += 1
    course.settled = settled
    return course


def numbers_of(part):
    """How many operations of each item a journal begins with as settled."""
    return [number_at(part, 40 + 4 * place, 4) for place in range(number_at(part, 36, 4))]


class Acts:
    """The lines of `sim`, act by act: an operation is begun in the last round before it is first sent, and settled in the round behind the answer that was handed on. Which
    operations an act `all` carries isn't said of those that weren't sent before."""

    def __init__(self):
        self.course, self.round, self.sent, self.handed, self.settled = Course("acts"), 0, {}, {}, {}

    def take(self, moment, act, item, number):
        if act == "round":
            self.settle(moment)
        elif act == "send":
            if number > self.sent.get(item, 0):
                self.course.add(self.round, "begin", item, number)
            self.sent[item] = max(number, self.sent.get(item, 0))
        elif act == "hand":
            self.handed[item] = max(number, self.handed.get(item, 0))
        elif act == "all":
            self.handed = dict(self.sent)
        elif act == "start":
            self.course.starts.append(moment)
            self.handed = {}

    def settle(self, moment):
        self.round = moment
        for item, held in sorted(self.handed.items()):
            for number in range(self.settled.get(item, 0) + 1, held + 1):
                self.course.add(moment, "done", item, number)
            self.settled[item] = max(held, self.settled.get(item, 0))
        self.handed = {}


def course_of_script(lines):
    acts = Acts()
    for line in lines:
        found = ACT.fullmatch(line)
        if found:
            acts.take(int(found[1]), found[2], *(None if one is None else int(one) for one in found.groups()[2:]))
    acts.course.events.sort(key=lambda event: event[0])
    return acts.course


def is_script(text):
    try:
        value = json.loads(text)
    except (ValueError, RecursionError):
        return False
    return isinstance(value, dict) and "script" in value


class Told:
    """The operations with their moments, where all of the course is of this document."""

    def __init__(self, explained, course):
        self.explained, self.course, self.operations = explained, course, explained.operations
        self.end = max([0] + [event[0] for event in course.events])
        for moment, what, item, number in course.events:
            one = self.operations.get((item, number))
            if one is None or what not in ("begin", "done"):
                raise Unread(f"item {item} operation {number} is none of the document's")
            if what == "begin" and one.begun is None:
                one.begun = moment
            if what == "done" and one.settled is None:
                one.begun = 0 if one.begun is None else one.begun
                one.settled = moment
        self.before = self.found_settled()

    def found_settled(self):
        """The operations that must have been settled before the first moment: those in front of others of their item, and those that others need, which nothing tells of."""
        given = getattr(self.course, "settled", [])
        before = {(item, number) for item, count in enumerate(given) for number in range(1, count + 1)}
        waiting = [one for one in self.operations.values() if one.begun is not None] + [self.operations[place] for place in before if place in self.operations]
        while waiting:
            for place in self.needed(waiting.pop()):
                if self.operations[place].begun is None and place not in before:
                    before.add(place)
                    waiting.append(self.operations[place])
        return {place for place in before if place in self.operations}

    def needed(self, one):
        """The operations that have to be settled before this one may begin."""
        if one.number > 1:
            yield one.item, one.number - 1
        for item, stage in one.needs:
            yield from self.up_to(item, stage)

    def up_to(self, item, stage):
        """Of an item the last operation that leads to this stage or to one before it."""
        number = 0
        while (item, number + 1) in self.operations and self.operations[item, number + 1].stage <= stage:
            number += 1
        if number:
            yield item, number

    def free_at(self, one):
        """When all that an operation needs was settled; None where it isn't yet."""
        moments = [0 if place in self.before else self.operations[place].settled for place in self.needed(one)]
        return None if None in moments else max(moments, default=0)

    def cause(self, one):
        """The operation that was settled last of those that this one needs; None where none was settled behind the beginning."""
        places = [place for place in self.needed(one) if place not in self.before and self.operations[place].settled]
        return max((self.operations[place] for place in places), key=lambda other: other.settled, default=None)
