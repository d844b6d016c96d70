"""The networks that the tests call by a name, read from where they stand: examples/."""

import json
import os

EXAMPLES = os.path.join(os.path.dirname(os.path.abspath(__file__)), "..", "examples")


def read(name):
    with open(os.path.join(EXAMPLES, name), encoding="utf-8") as file:
        return file.read()


def document(name):
    """The problem and the plan of an example, without what else stands in it."""
    value = json.loads(read(name))
    return {"problem": value["problem"], "plan": value["plan"]}


# One flow, which moves 3 of its 4 to a second path in one step: six items, of which item 0 at A has one operation. As `plan` writes it.
ONE = read("one.out").removesuffix("\n")
# Two flows at two switches, which each move 3 of their 4 at once.
TWO = document("two.json")
# Three stages to go, where no barrier fits between them.
LATE = document("late.json")
# A tunnel goes and another one comes where both tables are full: there is work at A, B, Y and Z, and none at X. A problem, for the program to plan.
FULL_TABLES = json.loads(read("full-tables.json"))
# Two flows of 6 change places over links of 9. A problem, for the program to plan.
EXCHANGE = document("checked.json")["problem"]
