"""A switch that is a table in a file: for each item a line with what it carries, in whole units.

    python3 agents/python/table_switch.py ADDRESS FOLDER

The folder is made where there is none, and has the table and the agent's memory in it. It is the smallest device that there is, to copy from.
"""

import fractions
import os
import sys

from swanroll_agent import serve


def read(path):
    """The lines of a table by item."""
    if not os.path.exists(path):
        return {}
    with open(path, encoding="utf-8") as file:
        return {int(line.split(" ", 1)[0]): line for line in file}


def device(path):
    """The device's one function, over the table in a file."""
    table = read(path)

    def apply(item, rates, scale):
        """Puts a new table in the place of the old one: a reader finds either, and never a part."""
        table[item] = " ".join([str(item), *(str(fractions.Fraction(rate, scale)) for rate in rates)]) + "\n"
        with open(path + ".new", "w", encoding="utf-8") as file:
            file.writelines(line for _, line in sorted(table.items()))
        os.replace(path + ".new", path)

    return apply


def main():
    if len(sys.argv) != 3:
        sys.exit("usage: table_switch.py ADDRESS FOLDER")
    address, folder = sys.argv[1:]
    os.makedirs(folder, exist_ok=True)
    serve(address, device(os.path.join(folder, "table")), os.path.join(folder, "memory"))


if __name__ == "__main__":
    main()
