"""The last value inside each limit of `swanroll plan` and the first outside, with what is refused beside: runs the program on
each input and compares its status and its line.

    python3 tests/limits.py PROGRAM
"""

import json
import subprocess
import sys

from outcomes import report

PLANNED, NOT_JSON, ABOVE, NOT_WHOLE, KIND = "planned", "not JSON", "above 16777216 bytes", "not a whole number", "wrong kind"
LINKS = '{"from":"A","to":"B","capacity":9},{"from":"B","to":"C","capacity":9},{"from":"C","to":"B","capacity":9}'


def problem(switches="", links="", flows=""):
    return f'{{"switches":[{switches}],"links":[{links}],"flows":[{flows}]}}'


def over_three(flows, links=LINKS):
    """Three switches A, B and C, with these links and flows."""
    return problem(",".join(f'{{"name":"{name}","table":100000}}' for name in "ABC"), links, flows)


def flow(tunnels, name="f"):
    return f'{{"name":"{name}","tunnels":[{tunnels}]}}'


def tunnel(path='["A","B"]', old="0", new="1"):
    return f'{{"path":{path},"old":{old},"new":{new}}}'


def chain(hops):
    """A chain of 18 switches, and a tunnel along the first `hops`."""
    names = [f"s{at}" for at in range(18)]
    return json.dumps({
        "switches": [{"name": name, "table": 1} for name in names],
        "links": [{"from": a, "to": b, "capacity": 1} for a, b in zip(names, names[1:])],
        "flows": [{"name": "f", "tunnels": [{"path": names[:hops], "old": 0, "new": 1}]}],
    })


def rows(count, text):
    return ",".join([text] * count)


def cases():
    """A name, the input, and what is told of it: that it is planned, or the line without its first word."""
    yield "blanks around everything", " \t\r\n{ \"flows\" : [ ] , \"links\" : [ ] , \"switches\" : [ ] } \n", PLANNED
    yield "keys that aren't known", problem()[:-1] + ',"more":{"x":[1.5]}}', PLANNED
    yield "the last of two equal keys counts", '{"flows":1,"switches":[],"links":[],"flows":[]}', PLANNED
    yield "the first of two equal keys doesn't", '{"switches":[],"links":[],"flows":[],"flows":1}', "flows: wrong kind"
    yield "something behind the value", problem() + "x", NOT_JSON
    yield "a byte order mark", "\ufeff" + problem(), NOT_JSON
    yield "a value that is cut off", problem()[:-1], NOT_JSON
    yield "a large float", problem()[:-1] + ',"n":1e40}', PLANNED
    yield "a number without a finite value", problem()[:-1] + ',"n":1e400}', NOT_JSON
    yield "bytes that are no UTF-8", problem().encode()[:-1] + b',"\xff":1}', NOT_JSON
    yield "126 lists in the object", problem()[:-1] + ',"n":' + "[" * 126 + "]" * 126 + "}", PLANNED
    yield "127 lists in the object", problem()[:-1] + ',"n":' + "[" * 127 + "]" * 127 + "}", NOT_JSON
    yield "200 open lists", "[" * 200, NOT_JSON
    one = over_three(flow(tunnel()))
    yield "16777216 bytes", one.rjust(16777216), PLANNED
    yield "16777217 bytes", one.rjust(16777217), ABOVE

    for table, told in (("0", PLANNED), ("-0", NOT_WHOLE), ("1.0", NOT_WHOLE), ("1e3", NOT_WHOLE), ("1.5", NOT_WHOLE), ("-1", NOT_WHOLE),
                        ("1000000", PLANNED), ("1000001", "1000001 above 1000000"), ("18446744073709551615", "18446744073709551615 above 1000000"),
                        ("18446744073709551616", NOT_WHOLE), ('"1"', KIND), ("null", KIND)):
        yield f"a table of {table}", problem(f'{{"name":"A","table":{table}}}'), at("switches[0].table", told)
    wide = '{"from":"A","to":"B","capacity":1000000000000}'
    for rate, told in (("0", PLANNED), ("null", PLANNED), ("1000000000", PLANNED), ("1000000001", "1000000001 above 1000000000"), ('"1"', KIND)):
        yield f"a rate of {rate}", over_three(flow(tunnel(old=rate)), wide), at("flows[0].tunnels[0].old", told)
    for capacity, told in (("0", PLANNED), ("1000000000000", PLANNED), ("1000000000001", "1000000000001 above 1000000000000")):
        yield f"a capacity of {capacity}", over_three("", f'{{"from":"A","to":"B","capacity":{capacity}}}'), at("links[0].capacity", told)

    for name, told in (("é" * 64, PLANNED), ("é" * 64 + "a", "129 above 128"), ("x" * 128, PLANNED), ("x" * 129, "129 above 128"), ("", PLANNED)):
        yield f"a switch's name of {len(name.encode())} bytes", problem(f'{{"name":"{name}","table":1}}'), at("switches[0].name", told)
        yield f"a flow's name of {len(name.encode())} bytes", over_three(flow("", name)), at("flows[0].name", told)
    yield "a switch twice, once with an escape", problem('{"name":"A","table":1},{"name":"\\u0041","table":1}'), "switches[1].name: name twice"
    yield "a flow named as a switch", over_three(flow("", "A")), PLANNED

    def with_width(width, form="2"):
        return over_three(flow(tunnel()[:-1] + f',"width":{width}}}')).replace("{", f'{{"format":{form},', 1)

    for form, told in (("1", PLANNED), ("0", "format: format 0"), ("2", 'flows[0].tunnels[0]: missing "width"'), ("3", "format: format 3"),
                       ("null", "format: wrong kind"), ("1.0", "format: not a whole number")):
        yield f"format {form}, and no width", over_three(flow(tunnel())).replace("{", f'{{"format":{form},', 1), told
    for width, told in (("1", PLANNED), ("16", PLANNED), ("17", "17 above 16"), ("0", "width 0"), ("null", KIND), ("1.5", NOT_WHOLE)):
        yield f"a width of {width} in format 2", with_width(width), at("flows[0].tunnels[0].width", told)
        yield f"a width of {width} in format 1", with_width(width, "1"), PLANNED
    yield "a width that fits in no table", with_width("16").replace("100000", "15"), 'table "A" wants 16 above 15'
    yield "a width that just fits", with_width("16").replace("100000", "16"), PLANNED

    there = '{"from":"A","to":"B","capacity":0}'
    yield "a link there and one back", over_three("", there + ',{"from":"B","to":"A","capacity":0}'), PLANNED
    yield "a link from a switch to itself", over_three("", '{"from":"A","to":"A","capacity":0}'), PLANNED

    yield "a path of 17 switches", chain(17), PLANNED
    yield "a path of 18 switches", chain(18), "flows[0].tunnels[0].path: 18 above 17"
    yield "16 tunnels of a flow", over_three(flow(rows(16, tunnel(new="0")).replace('"new":0', '"new":1', 1))), PLANNED
    yield "17 tunnels of a flow", over_three(flow(rows(17, tunnel(new="0")))), "flows[0].tunnels: 17 above 16"
    full = ",".join(flow(rows(16, tunnel(new="0")), f"f{number}") for number in range(256))
    yield "4096 tunnels", over_three(full.replace('"new":0', '"new":1', 1)), PLANNED
    yield "4097 tunnels", over_three(full + "," + flow(tunnel(), "last")), "flows[256].tunnels: 4097 above 4096"
    for count, told in ((1024, PLANNED), (1025, "1025 above 1024")):
        switches = ",".join(f'{{"name":"s{number}","table":1}}' for number in range(count))
        link, last = f'{{"from":"s0","to":"s{count - 1}","capacity":1}}', flow(tunnel(f'["s0","s{count - 1}"]'))
        yield f"{count} switches, and a tunnel to the last", problem(switches, link, last), at("switches", told)
        flows = ",".join(flow("", f"f{number}") for number in range(count))
        yield f"{count} flows", over_three(flows), at("flows", told)
    pairs = [(a, b) for a in range(46) for b in range(46)]
    for count, told in ((2048, PLANNED), (2049, "2049 above 2048")):
        switches = ",".join(f'{{"name":"s{number}","table":1}}' for number in range(46))
        links = ",".join(f'{{"from":"s{a}","to":"s{b}","capacity":1}}' for a, b in pairs[:count])
        last = flow(tunnel(json.dumps([f"s{end}" for end in pairs[count - 1]])))
        yield f"{count} links, and a tunnel over the last", problem(switches, links, last), at("links", told)


def at(place, told):
    """What is told of a place."""
    return told if told == PLANNED else f"{place}: {told}"


def wanted(told):
    """The status and the line."""
    if told == PLANNED:
        return 0, ""
    return (4, f"no plan: {told}\n") if "wants" in told else (3, f"input: {told}\n")


def outcomes(program):
    for name, text, told in cases():
        data = text if isinstance(text, bytes) else text.encode()
        done = subprocess.run([program, "plan"], input=data, capture_output=True)
        found = done.returncode, done.stderr.decode()
        met = found == wanted(told) and bool(done.stdout) == (told == PLANNED)
        yield name, None if met else f"wanted {told}, found {found}"


if __name__ == "__main__":
    report("limits", "inputs", outcomes(sys.argv[1]))
