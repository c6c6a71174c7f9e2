"""What the taps of a network emit, worked out anew from a layout and its log.

What a station emits is told by the rows of its sendings: a frame, and from where its hit puts it a jam. What a port emits
is told by stepping the repeaters half bit by half bit, as docs/model.md and docs/formats.md have them. A step goes by
classes of symbols alone: nothing, one signal, or several on top of each other, since no tap emits a Clash. The rows that
the repeaters give on the way must be those of the log; `Differs` says where they aren't."""
import collections
import heapq

HEADER, JAM_LENGTH, FRAGMENT = 128, 64, 192
LONGEST_OUTPUT, REST = 100_000, 192
MOST_IN_ROW, LONGEST_CLASH, CLEAN_RUN = 31, 2_049, 1_024
LOOK_BACK = 2_000
SENDINGS = ("sent", "collided", "given_up", "cut")
IDLE, TO_ALL = ("idle", None, 0), ("to_all", None, 0)


class Differs(Exception):
    """A row that the repeaters of this reading give and the log doesn't, or the other way round."""


def jam_begins(start, hit):
    """The half bit of the first symbol of the jam of a sending that was hit at this position."""
    return start + (HEADER if hit < HEADER else 2 * (hit // 2 + 1))


def sending_of(words):
    """Of the words of a sending's row: the start, the end and where the jam begins, the end where there is none."""
    told = dict(zip(words[4::2], words[5::2]))
    start, end, hit = int(told["start"]), int(words[0]), told.get("hit", "none")
    return start, end, end if hit == "none" else min(jam_begins(start, int(hit)), end)


def station_signals(log):
    """By station the stretches of its frames and jams, in order of time."""
    found = collections.defaultdict(list)
    for line in log:
        words = line.split()
        if words[1] == "station" and words[3] in SENDINGS:
            start, end, jam = sending_of(words)
            found[words[2]] += [stretch for stretch in ((start, jam, "frame"), (jam, end, "jam"))
                                if stretch[0] < stretch[1]]
    return found


class Port:
    """A repeater's port: what it hears and emits now, its guard, its run of output, and what it was told to emit."""

    def __init__(self, number, segment, at, delay):
        self.number, self.segment, self.at = number, segment, at
        self.heard = 0
        self.decided = collections.deque([False] * delay)
        self.run = self.rest = 0
        self.closed = self.mend = self.struck = False
        self.in_row = self.clash_run = self.clean_run = 0
        self.kind, self.since, self.stretches = None, 0, []

    def decide(self, wish):
        """What is decided for a wish, None for Idle, and whether the port is halted in this step."""
        if self.rest > 0:
            self.rest, self.run = self.rest - 1, 0
            return None, False
        if wish is None:
            self.run = 0
            return None, False
        if self.run == LONGEST_OUTPUT:
            self.rest, self.run = REST - 1, 0
            return None, True
        self.run += 1
        return wish, False

    def guard(self, emits):
        """The guard's step: "opened", "closed" or None."""
        hears, event = self.heard > 0, None
        if self.closed and self.mend and not hears:
            self.closed = self.mend = False
            self.in_row, event = 0, "opened"
        if self.heard > 1 or hears and emits:
            self.clash_run, self.clean_run, self.mend = min(self.clash_run + 1, LONGEST_CLASH), 0, False
            if not self.struck:
                self.struck, self.in_row = True, min(self.in_row + 1, MOST_IN_ROW)
            if not self.closed and (self.in_row == MOST_IN_ROW or self.clash_run == LONGEST_CLASH):
                self.closed, event = True, "closed"
            return event
        self.clash_run = 0
        if hears or emits:
            self.clean_run = min(self.clean_run + 1, CLEAN_RUN)
            if self.clean_run == CLEAN_RUN:
                self.in_row, self.mend = 0, self.closed
        else:
            self.clean_run, self.struck = 0, False
        return event

    def is_calm(self):
        """Whether steps that hear nothing change nothing but the time."""
        return not (self.heard or self.run or self.rest or self.struck or self.clash_run or self.clean_run
                    or self.kind or self.closed and self.mend or any(self.decided))


class Repeater:
    """A repeater, stepped half bit by half bit."""

    def __init__(self, row):
        self.name, self.delay, self.mode = row["name"], row["delay"], IDLE
        self.ports = [Port(number, port["segment"], port["at"], row["delay"])
                      for number, port in enumerate(row["port"], 1)]

    def next_mode(self):
        """The mode after a step, by the table of modes."""
        name, port, i = self.mode
        active = [one for one in self.ports if one.heard and not one.closed]
        later = i + 1 if i < FRAGMENT + 3 else FRAGMENT
        if name == "to_all":
            if later < FRAGMENT or len(active) > 1:
                return name, None, later
            return ("one_port", active[0], 0) if active else IDLE
        if any(one is not port for one in active) and (port or len(active) > 1):
            return TO_ALL
        if name == "idle":
            return ("jam" if active[0].heard > 1 else "repeat", active[0], 0) if active else IDLE
        if active and (name == "extend" or name == "repeat" and port.heard > 1):
            return "jam", port, 0
        if active or name == "jam" and later < FRAGMENT:
            return name, port, later
        if name in ("repeat", "extend") and later < FRAGMENT:
            return "extend", port, later
        return IDLE

    def wish(self, port):
        """What the mode wishes for a port: the kind of signal, None for Idle."""
        name, heard, _ = self.mode
        if name == "idle" or port is heard:
            return None
        return {"repeat": f"repeat {heard.number if heard else 0}", "extend": "extend"}.get(name, "jam")

    def step(self, t, tell):
        """The step in half bit t: the rows that it gives. `tell` gets a port that begins or ends to emit, when, and 1
        or -1."""
        was_to_all = self.mode[0] == "to_all"
        self.mode = self.next_mode()
        if self.mode[0] == "to_all" and not was_to_all:
            yield "clash"
        for port in self.ports:
            kind, is_halted = port.decide(self.wish(port))
            port.decided.append(kind is not None)
            if is_halted:
                yield f"halted port {port.number}"
            if kind != port.kind:
                begin, before = t + self.delay, port.kind
                if before:
                    port.stretches.append((port.since, begin, before))
                port.kind, port.since = kind, begin
                if (kind is None) != (before is None):
                    tell(port, begin, -1 if kind is None else 1)
            event = port.guard(port.decided.popleft())
            if event:
                yield f"{event} port {port.number}"

    def is_calm(self):
        return self.mode is IDLE and all(port.is_calm() for port in self.ports)


class Changes:
    """What comes to the ports: by half bit how the number of signals that each hears changes."""

    def __init__(self, repeaters):
        self.at, self.times = collections.defaultdict(list), []
        self.on = collections.defaultdict(list)
        for repeater in repeaters:
            for port in repeater.ports:
                self.on[port.segment].append((repeater, port))

    def add(self, segment, place, t, change, own=None):
        for repeater, port in self.on[segment]:
            if port is not own:
                when = t + abs(port.at - place)
                if when not in self.at:
                    heapq.heappush(self.times, when)
                self.at[when].append((repeater, port, change))

    def take(self, t):
        """The changes of half bit t; all before it were taken."""
        if self.times and self.times[0] == t:
            heapq.heappop(self.times)
        return self.at.pop(t, [])


def port_signals(layout, stations, end, rows):
    """By port, as NAME:P, the stretches that it emits below a half bit. The repeaters' rows are put into a list."""
    repeaters = [Repeater(row) for row in layout.get("repeater", [])]
    changes = Changes(repeaters)
    for station in layout.get("station", []):
        for start, stop, change in ((row[0], row[1], 1) for row in stations.get(station["name"], [])):
            changes.add(station["segment"], station["at"], start, change)
            changes.add(station["segment"], station["at"], stop, -change)

    def tell(port, t, change):
        changes.add(port.segment, port.at, t, change, port)

    order = {repeater: number for number, repeater in enumerate(repeaters)}
    t, awake = 0, set()
    while t < end and (awake or changes.times):
        if not awake:
            t = changes.times[0]
        if t >= end:
            break
        for repeater, port, change in changes.take(t):
            port.heard += change
            awake.add(repeater)
        for repeater in sorted(awake, key=order.get):
            rows += [f"{t} repeater {repeater.name} {body}" for body in repeater.step(t, tell)]
        awake = {repeater for repeater in awake if not repeater.is_calm()}
        t += 1
    return {f"{repeater.name}:{port.number}": port.stretches + [(port.since, end, port.kind)] * bool(port.kind)
            for repeater in repeaters for port in repeater.ports}


def check_rows(rows, log, end):
    """Whether the repeaters' rows below a half bit are those of the log."""
    told = [line for line in log if line.split()[1] == "repeater" and int(line.split()[0]) < end]
    for mine, other in zip([*rows, None], [*told, None]):
        if mine != other:
            raise Differs(f"this reading has '{mine}' where the log has '{other}'")


def signals(layout, log, first, last):
    """For each tap in order its name and its stretches (START, END, KIND) of the half bits that a page shows."""
    stations, rows = station_signals(log), []
    ports = port_signals(layout, stations, last, rows)
    check_rows(rows, log, last)
    bound = max(first - LOOK_BACK, 0)
    taps = [(station["name"], stations.get(station["name"], [])) for station in layout.get("station", [])]
    for name, stretches in [*taps, *ports.items()]:
        cut = [(max(start, bound), min(end, last), kind) for start, end, kind in stretches]
        yield name, [stretch for stretch in cut if stretch[0] < stretch[1]]
