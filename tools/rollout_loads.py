"""What each link and table may have to hold while a rollout goes on: an operation in flight counts with what it had and with what it brings, whichever is more."""


class Places:
    """The links and tables of a document, what each has, and which of them an operation touches: by the items' order, which is that of flows and then that of the entries of
    each tunnel's path."""

    def __init__(self, document, loads):
        self.rows = [*loads.links, *loads.tables]
        self.links = len(loads.links)
        link_at = {tuple(row.names): place for place, row in enumerate(loads.links)}
        table_at = {row.names[0]: self.links + place for place, row in enumerate(loads.tables)}
        flows = document["problem"]["flows"]
        self.homes, self.names, self.touched = [flow["tunnels"][0]["path"][0] if flow["tunnels"] else None for flow in flows], [flow["name"] for flow in flows], []
        for flow in flows:
            self.touched.append([[link_at[ends] for ends in zip(tunnel["path"], tunnel["path"][1:])] for tunnel in flow["tunnels"]])
        for flow in flows:
            for tunnel in flow["tunnels"]:
                for switch in tunnel["path"]:
                    self.homes.append(switch)
                    self.names.append((flow["name"], tunnel["path"]))
                    self.touched.append((table_at[switch], tunnel.get("width", 1)))

    def changes(self, one):
        """What an operation takes away and what it adds, of each place that it touches."""
        touched = self.touched[one.item]
        if one.what == "rates":
            for tunnel, (old, new) in enumerate(zip(*one.rates)):
                for place in touched[tunnel]:
                    yield place, old, new
        else:
            place, width = touched
            yield (place, 0, width) if one.what == "install" else (place, width, 0)

    def by_place(self, one):
        """The same, each place once: by how much the operation may raise it while it flies, and by how much it has changed it once it is settled."""
        found = {}
        for place, old, new in self.changes(one):
            before, after = found.get(place, (0, 0))
            found[place] = before + old, after + new
        return {place: (max(0, new - old), new - old) for place, (old, new) in found.items() if new != old}


class Running:
    """How much each place may have to hold, moment by moment, and what is taken of it at each step, by which the release asks for room: of an item that stands at a step or
    before it the most that it has in that step, of one that stands behind it what it has there, and while it flies, the most that it may have."""

    def __init__(self, places, told):
        self.places, self.told = places, told
        self.now = [row.taken[0] for row in places.rows]
        self.taken = [[row.taken[2 * step + 1] for row in places.rows] for step in range(told.explained.stages)]
        self.left = sorted((one.stage - 1, key) for key, one in told.operations.items())
        self.done = set()
        for key in sorted(told.before):
            self.begin(told.operations[key])
            self.settle(told.operations[key])
        # For each place the moments at which it changes, and what it has from then on.
        self.steps = [[(0, taken)] for taken in self.now]
        self.blocked = {}

    def note(self, moment, place):
        """What a place has from this moment on: the last that it comes to then."""
        steps = self.steps[place]
        if steps[-1][0] == moment:
            steps.pop()
        if not steps or steps[-1][1] != self.now[place]:
            steps.append((moment, self.now[place]))

    def add(self, one, amounts, steps):
        for place, amount in amounts.items():
            self.now[place] += amount
            for step in steps:
                self.taken[step][place] += amount

    def begin(self, one):
        self.add(one, {place: flying for place, (flying, _) in self.places.by_place(one).items()}, range(one.stage - 1))

    def settle(self, one):
        self.done.add((one.item, one.number))
        self.add(one, {place: settled - flying for place, (flying, settled) in self.places.by_place(one).items()}, range(one.stage))

    def least(self):
        """The least step that some item hasn't taken."""
        while self.left and self.left[0][1] in self.done:
            self.left.pop(0)
        return self.left[0][0] if self.left else self.told.explained.stages

    def lacking(self, one):
        """The place that has no room for an operation now; of several the one that lacks most."""
        found = [(self.taken[step][place] + flying - self.places.rows[place].room, -place)
                 for place, (flying, _) in self.places.by_place(one).items() for step in range(self.least(), one.stage - 1)]
        most = max(found, default=(0, 0))
        return -most[1] if most[0] > 0 else None

    def waits(self):
        """The operations that nothing but room keeps from beginning, from the moment on at which all that they need was settled."""
        found = []
        for one in self.told.operations.values():
            free = self.told.free_at(one)
            if free is not None and (one.item, one.number) not in self.told.before and (one.begun is None or one.begun > free):
                found.append((free, one))
        return sorted(found, key=lambda pair: (pair[0], pair[1].item, pair[1].number))

    def events(self):
        """What happens at each moment, in order: first what is settled."""
        found = {}
        for one in self.told.operations.values():
            if one.settled is not None:
                found.setdefault(one.settled, []).insert(0, (self.settle, one))
            if one.begun is not None:
                found.setdefault(one.begun, []).append((self.begin, one))
        return found

    def run(self):
        """Goes through all moments; behind the last event of each, what waits from then on is asked what it lacks."""
        events, waits = self.events(), self.waits()
        for moment in sorted({*events, *(free for free, _ in waits)}):
            for happen, one in events.get(moment, []):
                happen(one)
                for place in self.places.by_place(one):
                    self.note(moment, place)
            for _, one in (wait for wait in waits if wait[0] == moment):
                place = self.lacking(one)
                if place is not None:
                    self.blocked[one.item, one.number] = moment, place
        return self

    def fullest(self, most):
        """The links that came nearest to what they have among those that changed, and what each had."""
        def share(place):
            return max(taken for _, taken in self.steps[place]) / max(1, self.places.rows[place].room)
        changed = [place for place in range(self.places.links) if len(self.steps[place]) > 1]
        return sorted(changed, key=lambda place: (-share(place), place))[:most]
