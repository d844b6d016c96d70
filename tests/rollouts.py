"""The command `run` over sockets: rollouts to their ends over switches that the tests play, with what the journal's file then holds byte for byte;
its words; each status with its line, by what causes it; journals that are cut or damaged anywhere; a controller that is killed; and `report` behind
each. With a reference documents and journals that it draws, in place of these cases: without a fleet, and rolled out to the end over switches that
answer at once; status, line and the bytes of the journal are compared with it.

    python3 tests/rollouts.py PROGRAM [REFERENCE]
"""

import fcntl
import json
import os
import random
import socket
import struct
import subprocess
import sys
import tempfile
import threading

from carried import Items, backwards
from journal_files import BEGIN, DONE, PARTS, SLOT, digest_of, entries_in, part, size_of, slot, text_of
from named import EXCHANGE, FULL_TABLES, LATE, ONE, TWO
from outcomes import report
from rolling import DEVICES, finished, planned, rollout, same, stopped
from switches import answer, plain, silent, write_fleet
from waiting import LIMITS, PATIENCE, by_first_that_fits, until

USAGE = (2, "", "usage: swanroll COMMAND [--NAME VALUE]\n")
LAST, HEADS, COMPARED, WHOLE = 2 ** 32 - 1, 72, 600, 150
NO_ROWS = '{"plan":{"scale":1,"stages":[{"installed":[],"rates":[]}]},"problem":{"flows":[],"links":[],"switches":[]}}'

# The digest of the document with one flow, and journals of it. The first format has operation 1 of item 0 begun by one batch; so has the second,
# with room for no more.
ONE_DIGEST = digest_of(json.loads(ONE)).hex()
BEGUN, SETTLED = [(BEGIN, 0, 1)], [(BEGIN, 0, 1), (DONE, 0, 1)]

FIRST_FORMAT = bytes.fromhex("54 53 0000000000000023 0000000000000041" + 17 * "00" + ONE_DIGEST + "00000000 47 00000001 01 00000000 00000001 00")
SECOND_FORMAT = bytes.fromhex(
    "54 53 0000000000000023 4000000000000061" + 17 * "00" + ONE_DIGEST + "00000000 00000006" + 6 * "00000000" + "00000000 47 00000001 01 00000000 00000001 00")
# What a rollout from nothing leaves, and what further starts make of that: the list is written anew, behind the part that has it or before it, and
# the room of a part is filled before another one is written.
ROLLED = bytes.fromhex(
    "54 53 0000000000000023 4000000000000061" + 17 * "00" + ONE_DIGEST + "00000000 00000006" + 6 * "00000000"
    + "00000000 47 00000001 01 00000000 00000001 47 00000001 02 00000000 00000001 00")
ANEW = bytes.fromhex(ONE_DIGEST + "00000000 00000006" + 6 * "00000000" + "00000002 01 00000000 00000001 02 00000000 00000001 00")
STARTED_AGAIN = bytes.fromhex("54 00 0000000000000023 4000000000000061 53 0000000000000084 4000000000000061") + ROLLED[35:] + ANEW
STARTED_TWICE = bytes.fromhex("54 53 0000000000000023 4000000000000061 00 0000000000000084 4000000000000061") + ANEW + ROLLED[35 + len(ANEW):] + ANEW + bytes(10)
STARTED_THRICE = STARTED_AGAIN[:PARTS] + STARTED_TWICE[PARTS:]


def report_of_one(entries, settled, flying, peaks, end):
    lines = [f"entries {entries}, settled {settled} of 1, flying {flying}", f"stage 1: {settled} of 1"]
    lines += [f"peak {link} {peak} of 10" for link, peak in zip(('"A">"B"', '"A">"C"', '"C">"B"'), peaks)]
    return "\n".join(lines + ['peak table "A" 2 of 8', 'peak table "B" 2 of 8', 'peak table "C" 1 of 8', end, ""])


NOTHING_YET = report_of_one(0, 0, 0, (4, 0, 0), "unfinished: 1")
IN_FLIGHT = report_of_one(1, 0, 1, (4, 3, 3), "unfinished: 1")
FINISHED = report_of_one(2, 1, 0, (4, 3, 3), "finished")


# Rollouts to their ends.

def from_nothing(program):
    """A rollout over each image in which no journal is, with the bytes that it leaves, and what further starts make of these."""
    for name, image in (("no file", None), ("no byte", b""), ("a zero", b"\0"), ("another byte", b"\x99"), ("zeros", bytes(118))):
        with rollout(program, ONE, image) as one:
            yield f"from {name}", same(one.run(), finished(1, 0))
            longer = (image or b"")[len(ROLLED):]
            yield f"from {name}, the journal", same(one.image(), ROLLED + longer)
            yield f"from {name}, the switches", one.misses() or same((one.guests(), one.commands()), ({"A"}, 1))
    with rollout(program) as one:
        for starts, left in enumerate((ROLLED, STARTED_AGAIN, STARTED_TWICE, STARTED_THRICE)):
            yield f"start {starts + 1}", same(one.run(), finished(1, 2 if starts else 0)) or same(one.image(), left)
        yield "start 4, the commands", same(one.commands(), 1)
        yield "start 4, the report", same(one.report(), (0, FINISHED, ""))
    with rollout(program, NO_ROWS, b"\0") as one:
        yield "a network without rows", same(one.run(environment=one.without("SWANROLL_FLEET")), finished(0, 0))
        yield "a network without rows, the report", same(one.report(), (0, "entries 0, settled 0 of 0, flying 0\nfinished\n", ""))


def to_the_end(program):
    """Larger rollouts under each policy and by any number of workers: the line, the switches, the ports that were opened, and a second start that
    finds all and sends nothing."""
    for name, value in (("two", TWO), ("late", LATE), ("full tables", planned(program, FULL_TABLES)), ("exchange", planned(program, EXCHANGE))):
        items = Items(value)
        for words in ("--policy critical", "--policy order", "--workers 1", "--workers 2 --policy order", "--workers 3", "--workers 16"):
            with rollout(program, value) as one:
                yield f"{name} by {words}", same(one.run(f"run {words}"), finished(items.operations, 0)) or one.misses()
                yield f"{name} by {words}, ports", same(one.guests(), items.working_homes())
                sent = one.commands()
                yield f"{name} by {words}, commands", same(sent, items.operations)
                yield f"{name} by {words}, again", same(one.run(), finished(items.operations, 2 * items.operations)) or same(one.commands(), sent)
                status, out, notes = one.report()
                first = f"entries {2 * items.operations}, settled {items.operations} of {items.operations}, flying 0\n"
                yield f"{name} by {words}, report", None if (status, notes) == (0, "") and out.startswith(first) and out.endswith("\nfinished\n") else out


def rounds_enough(program):
    """As many rounds as there are operations are enough, by one worker and by several: each round that offers a command settles one."""
    folder = os.path.join(os.path.dirname(os.path.abspath(__file__)), "..", "examples")
    for name in ("tables", "late", "ahead", "rehearsal"):
        with open(os.path.join(folder, name + ".json")) as file:
            value = json.load(file)
        operations = Items(value).operations
        for workers in (1, 2, 16):
            with rollout(program, value) as one:
                yield f"{name} in {operations} rounds by {workers}", same(one.run(f"run --workers {workers} --rounds {operations}"), finished(operations, 0)) or one.misses()


def one_port_of_two(program, limit):
    """One switch breaks its connection off at its first command; the other one has answered. The same run goes on over another connection. Where it
    breaks off each one, the run ends with its operation, and a later one goes on to the end."""
    def breaks_off(switch, guest, command):
        guest.shutdown(socket.SHUT_RDWR)

    def breaks_off_once(switch, guest, command):
        (plain if len(switch.commands) > 1 else breaks_off)(switch, guest, command)

    for workers in (1, 2):
        with rollout(program, TWO, None, {"B": breaks_off_once}) as one:
            yield f"one port of two breaks, by {workers}", same(one.run(f"run --workers {workers}", one.having(SWANROLL_TIMEOUT=limit)), finished(2, 0)) or one.misses()
        with rollout(program, TWO, None, {"B": breaks_off}) as one:
            end = one.run(f"run --workers {workers} --rounds 3", one.having(SWANROLL_TIMEOUT=limit))
            yield f"one port of two breaks for ever, by {workers}", same(end, stopped(5, "rounds spent: rounds 3, item 1 operation 1"))
            one.switches["B"].fate = plain
            end = one.run(f"run --workers {workers}")
            yield f"one port of two broke, by {workers}, then well", None if end[0] == 0 and end[1].startswith("finished: operations 2, found ") else repr(end)
            yield f"one port of two broke, by {workers}, the switches", one.misses()


def ranked(program):
    """Two flows come onto a link that a third one leaves, and there is room for one of them until it has. By chains the one with two operations is
    begun first; in the order of items the other one is, and then that one waits. The script in the document is passed over."""
    with open(os.path.join(os.path.dirname(os.path.abspath(__file__)), "..", "examples", "chain-first.json")) as file:
        value = json.load(file)
    # When the others settle is a matter of when their switches answer.
    entries = sorted((kind, *op) for kind in (BEGIN, DONE) for op in ((0, 1), (1, 1), (2, 1), (2, 2)))
    for words, first, waits in (("run --workers 1", 2, 0), ("run --policy critical --workers 1", 2, 0), ("run --policy order --workers 1", 0, 2)):
        with rollout(program, value) as one:
            yield f"ranked by {words}", same(one.run(words), finished(4, 0)) or one.misses()
            found = entries_in(one.image())
            yield f"ranked by {words}, the entries", same(sorted(found), entries)
            yield f"ranked by {words}, the first", same(found[:2], [(BEGIN, first, 1), (BEGIN, 1, 1)])
            yield f"ranked by {words}, what waits", None if found.index((BEGIN, waits, 1)) > found.index((DONE, 1, 1)) else repr(found)


def migrations(program):
    """The way back is another migration with a journal of its own; the journal of the way there is refused for it, and isn't touched."""
    with rollout(program, TWO) as one:
        there, back = digest_of(one.document).hex(), backwards(TWO)
        yield "there", same(one.run(), finished(2, 0))
        image, guests = one.image(), len(one.switches["A"].guests)
        for words, line in (("--migration 1", f"journal: other plan {there}/0 {there}/1"), (f"--migration {LAST}", f"journal: other plan {there}/0 {there}/{LAST}")):
            yield f"there with {words}", same(one.run(f"run {words}"), stopped(10, line)) or same(one.report(f"report {words}"), stopped(10, line))
        line = f"journal: other plan {there}/0 {digest_of(back).hex()}/1"
        yield "back over the same journal", same(one.run("run --migration 1", text=text_of(back)), stopped(10, line))
        yield "the journal refused", same(one.image(), image) or same(len(one.switches["A"].guests), guests)
        os.remove(one.journal)
        yield "back", same(one.run("run --migration 1", text=text_of(back)), finished(2, 0)) or one.misses(1, back)
        yield "back again", same(one.run("run --migration 1", text=text_of(back)), finished(2, 4))
        os.remove(one.journal)
        yield "there once more", same(one.run(f"run --migration {LAST}"), finished(2, 0)) or one.misses(LAST)


def goes_on(program):
    """What a journal tells is found: a list of each format, one without its last bytes, one with a start."""
    migrated = bytes.fromhex("54 00 0000000000000023 0000000000000041 53 0000000000000064 4000000000000061") + FIRST_FORMAT[35:]
    begun = part(bytes.fromhex(ONE_DIGEST), [0] * 6, BEGUN)[:-1] + bytes.fromhex("47 00000001 02 00000000 00000001 00")
    for name, image, found, left in (
        ("the first format", FIRST_FORMAT, 1, migrated.ljust(100, b"\0") + begun), ("the first format, cut", FIRST_FORMAT[:-3], 0, None),
        ("the second format", SECOND_FORMAT, 1, None), ("the second format, cut", SECOND_FORMAT[:-3], 0, None),
    ):
        with rollout(program, ONE, image) as one:
            yield f"from {name}, before", same(one.report(), (0, IN_FLIGHT if found else NOTHING_YET, ""))
            one.put(image)
            yield f"from {name}", same(one.run(), finished(1, found)) or one.misses() or same(one.image()[0], 0x54)
            yield f"from {name}, the journal", None if left is None else same(one.image(), left)
            yield f"from {name}, behind", same(one.report(), (0, FINISHED, ""))
    seventh = b"\x54" + slot(PARTS, size_of(6, 1)) + bytes(SLOT) + part(bytes.fromhex(ONE_DIGEST), [0] * 6, [], [BEGUN], 7)
    with rollout(program, ONE, seventh) as one:
        yield "from another migration's", same(one.run("run --migration 7"), finished(1, 1)) or one.misses(7)
        yield "from another migration's, report", same(one.report("report --migration 7"), (0, FINISHED, ""))
    settled = b"\x54" + slot(PARTS, size_of(6, 1)) + bytes(SLOT) + part(bytes.fromhex(ONE_DIGEST), [1, 0, 0, 0, 0, 0])
    with rollout(program, ONE, settled) as one:
        yield "from a start at which all is settled", same(one.run(), finished(1, 0)) or same(one.commands(), 0)


# Words and documents.

def words(program):
    for given in ("--rounds 1", "--rounds 200000", "--rounds 0000000000000000001", "--migration 0", f"--migration {LAST}", "--policy order", "--policy critical",
                  "--workers 1", "--workers 16", "--workers 016", "--migration 7 --policy order --rounds 3 --workers 3"):
        with rollout(program) as one:
            yield f"run {given}", same(one.run(f"run {given}"), finished(1, 0))
    with rollout(program) as one:
        for given in (
            "--rounds 0", "--rounds 200001", "--rounds 00000000000000000001", "--rounds +1", "--rounds -1", "--rounds 1.0", "--rounds 0x1", "--rounds ", "--rounds",
            "--migration -1", f"--migration {LAST + 1}", "--migration 18446744073709551616", "--migration", "--policy none", "--policy Order", "--policy ", "--policy",
            "--rounds 1 --rounds 1", "--migration 1 --migration 1", "--policy order --policy order", "--workers 2 --workers 2", "--rounds=1", "--rounds 1 2", "--k 3", "--guests 1",
            "--workers 0", "--workers 17", "--workers -1", "--workers", "rounds 1", "-- 1", "order --policy",
        ):
            yield f"run {given}", same(one.run(f"run {given}"), USAGE)
        yield "words that are refused touch nothing", same((one.image(), one.guests()), (None, set()))


def refused(program):
    """Documents that are refused, of which each touches neither journal nor port."""
    with rollout(program) as one:
        for name, text, line in (
            ("no text", "", "input: not JSON"),
            ("half of one", ONE[:-1], "input: not JSON"),
            ("a list", "[]", "input: top: wrong kind"),
            ("no problem", "{}", 'input: top: missing "problem"'),
            ("no plan", '{"problem":{"switches":[],"links":[],"flows":[]}}', 'input: top: missing "plan"'),
            ("another target", ONE.replace("[1,3]", "[9,3]"), "input: plan: P2 at stage 1, tunnel 0: 9 against 1"),
            ("a name twice", ONE.replace('"name":"B"', '"name":"A"'), "input: switches[1].name: name twice"),
            ("too much", " " * 16777217, "input: above 16777216 bytes"),
        ):
            yield f"a document that is refused: {name}", same(one.run(text=text), stopped(3, line))
        yield "a document of another form", same(one.run(text=ONE + "\n  "), finished(1, 0))
    with rollout(program) as one:
        one.run(text="{}")
        yield "a refused document touches nothing", same((one.image(), one.guests()), (None, set()))


# Each status by its cause.

def told(data):
    """A fate: the command is lost, and these bytes come back for it."""
    return lambda switch, guest, command: guest.sendall(data)


def rounds_spent(program, limit):
    """Each round offers the operation again; what comes back settles nothing."""
    useless = (("nothing", silent), ("an answer of an earlier migration", told(answer(1, 0, 9))), ("one of a later migration", told(answer(3, 99, 9))),
               ("that nothing is held", told(answer(2, 0, 0))))
    for name, fate in useless:
        with rollout(program, ONE, None, fate) as one:
            quick = one.having(SWANROLL_TIMEOUT=limit)
            yield f"a switch that answers {name}", same(one.run("run --rounds 3 --migration 2", quick), stopped(5, "rounds spent: rounds 3, item 0 operation 1"))
            yield f"a switch that answers {name}, its commands", same(one.commands(), 3)
            yield f"a switch that answers {name}, report", same(one.report("report --migration 2"), (0, IN_FLIGHT, ""))
            one.switches["A"].fate = plain
            yield f"a switch that answers {name}, then well", same(one.run("run --rounds 1 --migration 2"), finished(1, 1)) or one.misses(2)
    with rollout(program, TWO, None, silent) as one:
        quick = one.having(SWANROLL_TIMEOUT=limit)
        yield "two switches", same(one.run("run --rounds 2 --workers 1", quick), stopped(5, "rounds spent: rounds 2, item 0 operation 1")) or same(one.commands() in (3, 4), True)
    with rollout(program, TWO, None, {"B": silent}) as one:
        quick = one.having(SWANROLL_TIMEOUT=limit)
        yield "one switch of two", same(one.run("run --rounds 2 --workers 1", quick), stopped(5, "rounds spent: rounds 2, item 1 operation 1"))
        yield "one switch of two, the other", same(one.switches["A"].held, {0: (0, 1)}) or same([len(one.switches[name].commands) for name in "AB"], [1, 2])
        yield "one switch of two, journal", same(entries_in(one.image()), [(BEGIN, 0, 1), (BEGIN, 1, 1), (DONE, 0, 1)])


def no_journal(program):
    fault = stopped(8, "journal device fault")
    with rollout(program) as one:
        for name, environment in (
            ("isn't named", one.without("SWANROLL_JOURNAL")), ("has no name", one.having(SWANROLL_JOURNAL="")),
            ("is a folder", one.having(SWANROLL_JOURNAL=os.path.dirname(one.journal))), ("is no file", one.having(SWANROLL_JOURNAL="/dev/null")),
            ("lies in a folder that isn't there", one.having(SWANROLL_JOURNAL=one.journal + "/none/journal")),
        ):
            yield f"a journal that {name}", same(one.run(environment=environment), fault) or same(one.run("report", environment), fault)
        yield "without a journal no port", same(one.guests(), set())
    with rollout(program, ONE, SECOND_FORMAT) as one, open(one.journal, "r+b") as held:
        fcntl.flock(held, fcntl.LOCK_EX)
        yield "a journal that another process holds", same(one.run(), fault) or same(one.report(), fault)
        yield "a journal that another process holds, its bytes", same((one.image(), one.guests()), (SECOND_FORMAT, set()))
        fcntl.flock(held, fcntl.LOCK_UN)
        yield "a journal that no process holds any more", same(one.run(), finished(1, 1))
    with rollout(program, ONE, None, silent) as one:
        holding = one.fed()
        until(one.commands)
        yield "a journal that a controller holds", same(one.ended(one.start()), fault) or same(one.ended(one.start("report")), fault)
        holding.kill()
        one.ended(holding)
        one.switches["A"].fate = plain
        yield "a journal that a controller held", same(one.run(), finished(1, 1)) or one.misses()


def cut_off(switch, guest, command):
    """The command comes, and the connection ends within its answer."""
    guest.sendall(switch.carry_out(command)[:5])
    guest.shutdown(socket.SHUT_RDWR)


def hung_up(switch, guest, command):
    """The connection ends."""
    guest.shutdown(socket.SHUT_RDWR)


def no_port(program):
    """Fleets that lack a switch, and switches that can't be reached or go."""
    with rollout(program) as one, socket.socket() as unheard:
        unheard.bind(("127.0.0.1", 0))
        refusing, there = "127.0.0.1:%d" % unheard.getsockname()[1], one.switches["A"].address
        fault = stopped(9, 'port fault at "A"')
        yield "no fleet", same(one.run(environment=one.without("SWANROLL_FLEET")), fault)
        yield "a fleet that isn't there", same(one.run(environment=one.having(SWANROLL_FLEET=one.fleet + "s")), fault)
        for name, lines in (
            ("no line", ""), ("a line for others", f"B {there}\nC {there}\n"), ("two lines", f"A {there}\nA {there}\n"), ("a name alone", "A\n"),
            ("no address", "A \n"), ("no number", "A 127.0.0.1\n"), ("no such number", "A 127.0.0.1:99999\n"),
        ):
            with open(one.fleet, "w") as file:
                file.write(lines)
            yield f"a fleet with {name}", same(one.run(), fault) or same(one.report(), (0, NOTHING_YET, ""))
        yield "without a port no command", same((one.guests(), one.commands()), (set(), 0))
        with open(one.fleet, "w") as file:
            file.write(f"A {refusing}\n")
        end = one.run("run --rounds 2", one.having(SWANROLL_TIMEOUT="100"))
        yield "a fleet with an address that refuses", same(end, stopped(5, "rounds spent: rounds 2, item 0 operation 1")) or same(one.report(), (0, IN_FLIGHT, ""))
    value = planned(program, FULL_TABLES)
    with rollout(program, value) as one:
        write_fleet(one.fleet, [switch for name, switch in one.switches.items() if name != "Y"])
        yield "the third switch of four", same(one.run(), stopped(9, 'port fault at "Y"')) or same((one.guests(), one.commands()), ({"A", "B"}, 0))
        yield "the third switch of four, journal", same(entries_in(one.image()), [])
    odd = text_of(json.loads(ONE.replace('"A"', '"left \\"edge\\" "')))
    with rollout(program, odd) as one:
        yield "a name with spaces and quotes", same(one.run(), finished(1, 0)) or one.misses()
        yield "a name with spaces and quotes, no fleet", same(one.run(environment=one.without("SWANROLL_FLEET")), stopped(9, 'port fault at "left \\"edge\\" "'))


def going(program, limit):
    """A switch that goes each time that a command comes."""
    for name, fate, held in (("hangs up", hung_up, {}), ("goes within an answer", cut_off, {0: (0, 1)})):
        with rollout(program, ONE, None, fate) as one:
            end = one.run("run --rounds 2", one.having(SWANROLL_TIMEOUT=limit))
            spent = stopped(5, "rounds spent: rounds 2, item 0 operation 1")
            yield f"a switch that {name}", same(end, spent) or same(one.switches["A"].held, held) or same(one.report(), (0, IN_FLIGHT, ""))
            one.switches["A"].fate = plain
            yield f"a switch that {name}, again", same(one.run(), finished(1, 1)) or one.misses()


def refused_journals(program):
    """Journals that are refused: each line, an image that stays as it was, and no port."""
    digest = bytes.fromhex(ONE_DIGEST)
    head, wide, roomy = FIRST_FORMAT[:PARTS], *(b"\x54" + slot(PARTS, size) + bytes(SLOT) for size in (size_of(6, 1), 200))
    another = json.loads(ONE)
    another["problem"]["switches"][0]["table"] = 9
    other = digest_of(another)
    cases = [
        ("another first byte", b"A" + bytes(39), "first byte 65"),
        ("no slot", b"\x54" + bytes(99), "first byte 84"),
        ("no slot that is whole", FIRST_FORMAT[:60], "first byte 84"),
        ("another problem", wide + part(other, [0] * 6), f"other plan {other.hex()}/0 {ONE_DIGEST}/0"),
        ("another migration", wide + part(digest, [0] * 6, migration=7), f"other plan {ONE_DIGEST}/7 {ONE_DIGEST}/0"),
        ("no digest", head + bytes(32) + FIRST_FORMAT[67:], f"other plan {64 * '0'}/0 {ONE_DIGEST}/0"),
        ("a start of five numbers", wide + part(digest, [0] * 5), "start refused"),
        ("a start of seven", roomy + part(digest, [0] * 7), "start refused"),
        ("a start above what there is", wide + part(digest, [2, 0, 0, 0, 0, 0]), "start refused"),
        ("a start of an item without operations", wide + part(digest, [0, 1, 0, 0, 0, 0]), "start refused"),
        ("Done first", wide + part(digest, [0] * 6, [], [[(DONE, 0, 1)]]), "entry 0 illegal"),
        ("the second operation first", wide + part(digest, [0] * 6, [], [[(BEGIN, 0, 2)]]), "entry 0 illegal"),
        ("an operation begun twice", wide + part(digest, [0] * 6, BEGUN, [BEGUN]), "entry 1 illegal"),
        ("an operation done twice", roomy + part(digest, [0] * 6, BEGUN, [SETTLED[1:], [], SETTLED[1:]]), "entry 2 illegal"),
        ("an item without operations", wide + part(digest, [0] * 6, BEGUN, [[(BEGIN, 3, 1)]]), "entry 1 illegal"),
        ("an item that isn't there", wide + part(digest, [0] * 6, [], [[(BEGIN, 6, 1)]]), "entry 0 illegal"),
        ("another kind of entry", wide + part(digest, [0] * 6, BEGUN, [[(3, 0, 1)]]), "entry 1 illegal"),
    ]
    for name, image, line in cases:
        with rollout(program, ONE, image) as one:
            yield f"a journal with {name}", same(one.run(), stopped(10, f"journal: {line}")) or same(one.report(), stopped(10, f"journal: {line}"))
            yield f"a journal with {name} stays", same((one.image(), one.guests()), (image, set()))


def damaged_journals(program):
    """A journal cut at each length, and with each of its first bytes FF, of both formats: it is gone on with to the end, or refused and stays."""
    for form, whole in (("first", FIRST_FORMAT), ("second", SECOND_FORMAT)):
        images = [(f"cut at {length}", whole[:length]) for length in range(len(whole) + 1)]
        images += [(f"with FF at {at}", whole[:at] + b"\xff" + whole[at + 1:]) for at in range(HEADS)]
        with rollout(program, ONE) as one:
            for name, image in images:
                one.put(image)
                one.switches["A"].held.clear()
                yield f"a journal of the {form} format {name}", damaged(one, image)


def damaged(one, image):
    status, out, notes = one.run()
    if status == 0:
        found = 1 if out.endswith("1\n") else 0
        return same((status, out, notes), finished(1, found)) or one.misses() or same(one.report(), (0, FINISHED, ""))
    return same((status, out, notes[:9], one.image()), (10, "", "journal: ", image)) or same(one.report(), (status, out, notes))


def alien_answers(program):
    """Answers that no switch of the network gives: nothing is settled by them."""
    for name, data, line, migration in (
        ("a number above what was begun", answer(0, 0, 2), "item 0 held 2 above 1", 0),
        ("the last number", answer(0, 0, LAST), f"item 0 held {LAST} above 1", 0),
        ("a number above behind a good one", answer(0, 0, 1) + answer(0, 0, 2), "item 0 held 2 above 1", 0),
        ("an item of another switch", answer(0, 4, 1), 'item 4 not of "A"', 0),
        ("the last item there is", answer(0, 5, 1), 'item 5 not of "A"', 0),
        ("an item that isn't there", answer(0, LAST, 0), f'item {LAST} not of "A"', 0),
        ("an item that has no operation", answer(0, 3, 1), "item 3 held 1 above 0", 0),
        ("a zero", b"\0", 'byte 0 is no answer from "A"', 0),
        ("FF", b"\xff", 'byte 255 is no answer from "A"', 0),
        ("a command's first byte", b"M", 'byte 77 is no answer from "A"', 0),
        ("noise behind an answer of an earlier migration", answer(0, 9, 9) + b"G", 'byte 71 is no answer from "A"', 5),
    ):
        with rollout(program, ONE, None, told(data)) as one:
            words = f" --migration {migration}"
            yield f"told {name}", same(one.run("run" + words), stopped(11, f"alien: {line}")) or same(one.commands(), 1)
            yield f"told {name}, report", same(one.report("report" + words), (0, IN_FLIGHT, ""))
            one.switches["A"].fate = plain
            yield f"told {name}, then well", same(one.run("run" + words), finished(1, 1)) or one.misses(migration)
    with rollout(program, TWO, None, {"B": told(answer(0, 0, 1))}) as one:
        yield "told of the other switch's item", same(one.run(), stopped(11, 'alien: item 0 not of "B"'))


def streams(program):
    """Standard streams that fail, or aren't there."""
    with rollout(program) as one:
        with reset_connection() as broken:
            yield "standard input that fails", same(one.run(stdin=broken), stopped(6, "read fault")) or same((one.image(), one.guests()), (None, set()))
        with open("/dev/full", "wb") as full:
            yield "standard output that is full", same(one.run(stdout=full), stopped(7, "write fault")) or one.misses()
        reading, writing = os.pipe()
        os.close(reading)
        yield "standard output that nobody reads", same(one.run(stdout=writing), stopped(7, "write fault"))
        os.close(writing)
        yield "behind that", same(one.run(), finished(1, 2)) or same(one.report(), (0, FINISHED, ""))


def reset_connection():
    """A stream of which a read fails: the other end has broken it off."""
    with socket.create_server(("127.0.0.1", 0)) as server:
        broken = socket.create_connection(server.getsockname())
        other, _ = server.accept()
        other.setsockopt(socket.SOL_SOCKET, socket.SO_LINGER, struct.pack("ii", 1, 0))
        other.close()
        return broken


def killed_between(program):
    """A controller that is killed as it waits for an answer: what the journal then has is what the next one finds."""
    value = planned(program, EXCHANGE)
    operations = Items(value).operations
    for count in range(1, operations + 1):
        reached, answered = threading.Event(), []

        def first(switch, guest, command, count=count, reached=reached, answered=answered):
            """The first few commands come and are answered, and the next one comes in vain."""
            if len(answered) + 1 < count:
                answered.append(command)
                return plain(switch, guest, command)
            reached.set()

        with rollout(program, value, None, first) as one:
            started = one.fed(environment=one.having(SWANROLL_TIMEOUT="600000"))
            came = reached.wait(PATIENCE)
            started.kill()
            started.communicate()
            found = entries_in(one.image())
            flying = sum(kind == BEGIN for kind, _, _ in found) - sum(kind == DONE for kind, _, _ in found)
            line = f"entries {len(found)}, settled {(len(found) - flying) // 2} of {operations}, flying {flying}\n"
            yield f"killed at command {count}", None if came and one.report()[1].startswith(line) else f"{one.report()} in place of {line}"
            for switch in one.switches.values():
                switch.fate = plain
            yield f"killed at command {count}, again", same(one.run(), finished(operations, len(found))) or one.misses()


# A policy that holds operations back ends a rollout with 14 and how many are left. None of the two policies does, so this place is empty.


class Reference:
    """The modules of the reference, in a folder."""

    def __init__(self, folder):
        sys.dont_write_bytecode = True
        sys.path.insert(0, os.path.abspath(folder))
        import gen
        from oracle import agent, cli, disk, features, journal, release, runner

        self.gen, self.agent, self.cli, self.disk, self.journal, self.release, self.runner = gen, agent, cli, disk, journal, release, runner
        self.features = features.EVERYTHING.changed("none,places,planner,lp,widths,marks,crashes,policies,freeze,migration,run,report,term,journal=r16")


def drawn(program, reference):
    """Documents and journals that the reference draws, with no fleet: what is refused, what is found, and where a port is missing."""
    for number in range(COMPARED):
        case = reference.gen.make("run", "rollouts", number, reference.features)
        disk = reference.disk.Disk(case.image) if case.image is not None else None
        wanted = reference.cli.run(case.words, case.data, {}, disk, reference.features)
        with tempfile.TemporaryDirectory() as folder:
            yield f"drawn {number}, {case.words}", compared(program, case, wanted, disk, os.path.join(folder, "journal"))


def compared(program, case, wanted, disk, path):
    environment = {key: value for key, value in os.environ.items() if key not in DEVICES}
    if disk is not None:
        environment["SWANROLL_JOURNAL"] = path
        with open(path, "wb") as file:
            file.write(case.image)
    done = subprocess.run([program, *case.words], input=case.data, env=environment, capture_output=True, timeout=PATIENCE)
    left = None
    if disk is not None:
        with open(path, "rb") as file:
            left = file.read()
    status, out, notes = wanted
    return same((done.returncode, done.stdout.decode(), done.stderr.decode(), left),
                (status, out.decode(), notes.decode(), bytes(disk.data) if disk is not None else None))


def rolled(program, reference):
    """Whole rollouts of documents and journals that the reference draws, over switches that hold what the journal allows and answer at once: the end
    of a run by the reference over ports in memory, and its journal: byte for byte where nothing was begun, and else its entries."""
    for number in range(WHOLE):
        rng = random.Random(number)
        value = reference.gen.valid_document(rng, True)
        static, migration, policy = reference.gen.static_for(value), rng.choice((0, 0, 1, LAST)), rng.choice(("critical", "order"))
        image = reference.gen.random_image(rng, static, "r16", migration)
        if any(end in switch["name"] for switch in value["problem"]["switches"] for end in "\n\r"):
            continue  # no line of a fleet may name it
        held = held_by(reference, rng, static, image, migration)
        with rollout(program, value, image) as one:
            wanted, left = rolled_out(reference, static, image, held, migration, policy)
            one.hold(held)
            found = one.run(f"run --workers 1 --migration {migration} --policy {policy}")
            yield f"rolled {number}", same(found, wanted) or (one.misses(migration) if found[0] == 0 else None)
            alike = found[0] == 0 and listed(reference, static, image, one.image(), migration) == listed(reference, static, image, left, migration)
            yield f"rolled {number}, the journal", None if alike else same(one.image(), left)


def listed(reference, static, before, image, migration):
    """The start of a journal, the list that stood there, and what came to it, in any order: which switch answers first is its own matter. The reference
    reads no list that isn't legal."""
    found = reference.journal.recover(reference.disk.Disk(before), "r16", static, migration)[1]
    _, entries, start = reference.journal.recover(reference.disk.Disk(image), "r16", static, migration)
    return start, entries[:len(found)] == found, found, sorted(map(repr, entries[len(found):]))


def held_by(reference, rng, static, image, migration):
    """Of each item a pair that its switch may hold behind the journal; nothing where that is refused."""
    try:
        graph, _, _ = reference.journal.recover(reference.disk.Disk(image), "r16", static, migration)
    except reference.journal.JournalFault:
        return {}
    numbers = {item: rng.randint(graph.settled[item], graph.begun(item)) for item in range(len(static.items))}
    return {item: (migration, number) for item, number in numbers.items() if number}


def rolled_out(reference, static, image, held, migration, policy):
    """How the run ends by the reference, and the journal that it leaves."""
    agent, disk = reference.agent.Agent(), reference.disk.Disk(image)
    agent.pairs.update(held)
    ports = {switch: reference.runner.FaithfulPort(reference.features.frames, agent) for switch in range(len(static.problem.switches))}
    status, line = reference.runner.Run(static, disk, ports, "r16", 1000, migration, getattr(reference.release, policy)).run()
    return (stopped(status, line) if status else (0, line + "\n", "")), bytes(disk.data)


def outcomes(program, reference):
    kinds = [from_nothing, to_the_end, rounds_enough, ranked, migrations, goes_on, words, refused, no_journal, no_port, refused_journals, damaged_journals,
             alien_answers, streams, killed_between]
    if reference is None:
        for kind in kinds:
            yield from kind(program)
        for kind in (one_port_of_two, rounds_spent, going):
            yield from by_first_that_fits(kind, program, LIMITS)
    else:
        known = Reference(reference)
        yield from drawn(program, known)
        yield from rolled(program, known)


if __name__ == "__main__":
    report("rollouts", "cases", outcomes(os.path.abspath(sys.argv[1]), sys.argv[2] if len(sys.argv) > 2 else None))
