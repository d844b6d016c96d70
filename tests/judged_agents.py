"""The judge of rollouts with an agent of agents/python behind each of its switches: what a switch holds and answers is the library's, out of a memory on
a disk, and the judge decides whether the network was ever unsafe. It ends as the judge does.

    python3 tests/judged_agents.py JUDGE PROGRAM [WORD..]
"""

import itertools
import os
import sys
import tempfile

JUDGE = os.path.abspath(sys.argv[1])
sys.path.insert(0, JUDGE)
sys.path.append(os.path.join(os.path.dirname(os.path.abspath(__file__)), "..", "agents", "python"))
import judge  # noqa: E402
import switches  # noqa: E402
from swanroll_agent import NOTHING, Agent, Command, Memory  # noqa: E402

COUNT, SEED = "20", "41000"


def kept_in(folder):
    """The judge's switch, with the library in the place of its own rule."""
    numbers = itertools.count()

    class Kept(switches.Switch):
        def __init__(self, field, index):
            super().__init__(field, index)
            self.memory, self.changes = Memory(os.path.join(folder, str(next(numbers)))), []
            self.agent = Agent(lambda *change: self.changes.append(change), self.memory)

        def apply(self, command):
            """What the library answers has to be what the judge's switch would say of what the memory holds."""
            self.changes.clear()
            _, told = self.agent.answer(Command(*command))
            self.floor, pair = self.memory.floor, self.memory.held.get(command.item, NOTHING)[:2]
            if self.changes:
                self.held[command.item] = pair
                self.field.judge.applied(self, command)
            self.given.append((command.item, pair, None if command.term is None else self.floor))
            if told != switches.answer_bytes(*self.given[-1]):
                raise SystemExit(f"judged_agents: {command} is answered {told.hex()}")
            return self.given[-1]

    return Kept


def main():
    program, words = os.path.abspath(sys.argv[2]), sys.argv[3:]
    sys.argv = [judge.__file__, "--count", COUNT, "--seed", SEED, *words, "--", program]
    with tempfile.TemporaryDirectory() as folder:
        switches.Switch = kept_in(folder)
        judge.main()


if __name__ == "__main__":
    main()
