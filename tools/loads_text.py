"""What `swanroll loads` prints, read: what each link and each table takes at each moment, which are the stages and the steps between them in turn."""

import json
import re

NAME = r'"(?:[^"\\]|\\.)*"'
HEAD = re.compile(r"steps (\d+), scale (\d+)")
ROW = re.compile(rf"load (table )?({NAME})(?:>({NAME}))? of (\d+): ([0-9() ]+)")
FULLEST = re.compile(rf"fullest link: (?:none|({NAME})>({NAME}) (\d+) of (\d+) in step (\d+))")


def matched(pattern, line):
    found = pattern.fullmatch(line)
    if not found:
        raise ValueError(line)
    return found


class Row:
    """A link (two names) or a table (one), what it has, and what is taken of it at each moment."""

    def __init__(self, names, room, taken):
        self.names, self.room, self.taken = names, room, taken

    def percent(self, moment):
        """In whole percent, rounded down: only what is full has 100."""
        taken = self.taken[moment]
        return 100 * taken // self.room if self.room else 0

    def level(self, moment):
        """From 0 (nothing is taken) by quarters to 4 (less than 90 percent), 5 and 6 (full)."""
        if not self.taken[moment]:
            return 0
        if self.taken[moment] >= self.room:
            return 6
        return sum(self.percent(moment) >= bound for bound in (0, 25, 50, 75, 90))

    def share(self, moment):
        return self.taken[moment] / self.room if self.room else 0.0

    def changes(self, moment):
        """Whether a step changes what is taken: it does where any of its ends or its most differs from another."""
        return moment % 2 == 1 and len(set(self.taken[moment - 1:moment + 2])) > 1

    def most(self):
        return max(self.share(moment) for moment in range(len(self.taken)))


class Loads:
    """All of it. The moments 0, 2, 4 .. are the stages 0, 1, 2 .., and those between them the steps."""

    def __init__(self, text):
        head, *lines, last = text.removesuffix("\n").split("\n")
        self.steps, self.scale = map(int, matched(HEAD, head).groups())
        self.moments = range(2 * self.steps + 1)
        self.links, self.tables = [], []
        for line in lines:
            table, first, second, room, taken = matched(ROW, line).groups()
            names = [json.loads(name) for name in (first, second) if name is not None]
            row = Row(names, int(room), [int(word.strip("()")) for word in taken.split(" ")])
            if len(row.taken) != len(self.moments) or len(names) == (2 if table else 1):
                raise ValueError(line)
            (self.tables if table else self.links).append(row)
        *ends, most, room, step = matched(FULLEST, last).groups()
        self.fullest = None if most is None else ([json.loads(name) for name in ends], int(most), int(room), int(step))
