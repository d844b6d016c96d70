"""What a way's measurements say: loads in windows, lost packets and why, and the table."""

import itertools

WINDOW, SLOTS, LIMIT = 10, 100, 1.05  # samples of 10 ms, slots a second, and the load above which time is counted


def shares(result, load):
    """Of a link at each sample from the beginning of the change to the last packet: the seconds since then, and its load over the window before."""
    samples = load["samples"]
    for (before, had), (now, has) in zip(samples, samples[WINDOW:]):
        if result["begun"] <= now <= result["stopped"]:
            yield now - result["begun"], (has - had) / (now - before) / load["capacity"]


def slots_above(points):
    """The hundredths of a second at which a link's load is above the limit."""
    found = set()
    for (before, _), (now, share) in itertools.pairwise(points):
        if share > LIMIT:
            found.update(range(int(before * SLOTS), int(now * SLOTS)))
    return found


def figures(result):
    """The numbers of the table's row."""
    points = {load["link"]: list(shares(result, load)) for load in result["loads"]}
    most, link = max(((share, link) for link, own in points.items() for _, share in own), default=(0.0, ""))
    above = len(set().union(*map(slots_above, points.values()))) / SLOTS
    full = sum(load["drops"] for load in result["loads"])
    lost, refused = len(result["lost"]), result["refused"]
    # no more than were lost: now and then a packet of the kernel's own, which is none of the flows', finds no route either
    no_entry = refused + min(result["no_route"], max(lost - full - refused, 0))
    rest = lost - full - no_entry
    return {"way": result["way"], "most": most, "link": link, "above": above, "sent": result["sent"], "lost": lost, "full": full, "no_entry": no_entry,
            "too_busy": min(rest, result["too_busy"]), "unexplained": rest - min(rest, result["too_busy"]), "slowest": result["slowest"],
            "seconds": result["ended"] - result["begun"], "status": result["status"], "missed": result["missed"], "kills": len(result["kills"])}


def table(rows):
    """The rows as lines of text, in columns."""
    head = ["way", "greatest load", "above 105%", "lost of sent", "at a full link", "without an entry", "time"]
    cells = [head] + [[row["way"], f"{100 * row['most']:.0f}% {row['link']}", f"{row['above']:.2f} s", f"{row['lost']:,} of {row['sent']:,}", f"{row['full']:,}",
                       f"{row['no_entry']:,}", f"{row['seconds']:.1f} s"] for row in rows]
    widths = [max(map(len, column)) for column in zip(*cells)]
    return ["    ".join(cell.ljust(width) for cell, width in zip(line, widths)).rstrip() for line in cells]


def wrongs(row, notes, kills):
    """What isn't as it should be after a way, which was to have so many kills."""
    if row["status"]:
        yield f"{row['way']}: the controller ended with status {row['status']}: {notes}"
    if row["missed"]:
        yield f"{row['way']}: these items don't carry the new split: {row['missed']}"
    if row["unexplained"]:
        yield f"{row['way']}: {row['unexplained']} lost packets aren't explained"
    if row["kills"] < kills:
        yield f"{row['way']}: it ended before {kills - row['kills']} of {kills} kills"
