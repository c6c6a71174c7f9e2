"""A second reader of states, by docs/formats.md: the first fault of a state of a layout with its loads."""
import re

import logs

NAMES = ["", "TooLarge", "BadLine", "BadValue"]
NUMBER = r"(0|[1-9][0-9]*)"
TRUTH = "(yes|no)"
PHASE = f"(?:rest|waiting|backoff {NUMBER})"
DEFER = f"(?:watch|busy {TRUTH}|gap {NUMBER} {TRUTH})"
STATION = re.compile(f"station (\\S+) phase ({PHASE}) defer ({DEFER}) attempt {NUMBER} place {NUMBER} drawn {NUMBER}")
GUARD = re.compile(f"guard (\\S+) port {NUMBER} closed {TRUTH} mend {TRUTH} struck {TRUTH} in_row {NUMBER} "
                   f"clash_run {NUMBER} clean_run {NUMBER} rest {NUMBER}")
MOST = 2_000_000_000
MOST_UNTIL = 2_100_000_000


class Fault(Exception):
    """The first fault of a state: its code and its line, from 1."""

    def __init__(self, code, line):
        super().__init__(f"state fault {code} {NAMES[code]} line {line}")


class Reader:
    """Reads line by line what is due."""

    def __init__(self, octets, tree, queues):
        self.lines, self.number = octets.decode("latin-1").split("\n"), 0
        self.tree, self.queues = tree, dict(zip((s["name"] for s in tree.get("station", [])), queues))
        self.places, self.done, self.rows = {}, {}, []

    def next(self):
        self.number += 1
        if self.number >= len(self.lines):
            raise Fault(2, self.number)
        return self.lines[self.number - 1]

    def form(self, good):
        if not good:
            raise Fault(2, self.number)

    def rule(self, good):
        if not good:
            raise Fault(3, self.number)

    def match(self, pattern):
        """What a line of a form says."""
        match = re.fullmatch(pattern, self.next())
        self.form(match)
        return match

    def read(self):
        self.t = int(self.match(f"state {NUMBER}")[1])
        self.rule(self.t < 2 * self.tree["until_bits"])
        for station in self.tree.get("station", []):
            self.read_station(station["name"])
        for repeater in self.tree.get("repeater", []):
            for port in range(1, len(repeater["port"]) + 1):
                self.read_guard(repeater["name"], port)
        while (line := self.next()) != "end":
            self.read_row(line)
        self.rule(all(self.done.get(name, 0) == place for name, place in self.places.items()))
        if self.lines[self.number:] != [""]:
            raise Fault(2, self.number + 1)
        return self.rows

    def read_station(self, name):
        match = self.match(STATION)
        self.form(match[1] == name)
        attempt, place, drawn = (int(match[n]) for n in (8, 9, 10))
        frames = len(self.queues[name].frames)
        self.rule(place <= frames and (match[2] == "rest" or place < frames))
        self.rule(match[3] is None or int(match[3]) <= MOST_UNTIL)
        self.rule(1 <= attempt <= 16 and drawn <= MOST)
        gap = re.match(r"gap (\d+)", match[4])
        self.rule(gap is None or 1 <= int(gap[1]) <= 192)
        self.places[name] = place

    def read_guard(self, name, port):
        match = self.match(GUARD)
        self.form(match[1] == name and int(match[2]) == port)
        in_row, clash_run, clean_run, rest = (int(match[n]) for n in (6, 7, 8, 9))
        self.rule(in_row <= 31 and clash_run <= 2049 and clean_run <= 1024 and rest <= 191)
        self.rule(match[4] == "no" or match[3] == "yes")

    def read_row(self, line):
        self.form(line.startswith("row "))
        row = logs.row_of(line[4:].encode("latin-1"))
        self.form(row)
        devices = [(False, s["name"]) for s in self.tree.get("station", [])]
        devices += [(True, r["name"]) for r in self.tree.get("repeater", [])]
        self.form((row.repeater, row.name) in devices)
        now = (row.t, devices.index((row.repeater, row.name)))
        self.rule(row.what != "cut" and row.t < self.t and (not self.rows or self.rows[-1][0] <= now))
        self.rows.append((now, row, line[4:]))
        self.check_numbers(row)
        if row.what == "received":
            self.read_octets(row.numbers["octets"])

    def check_numbers(self, row):
        told = row.numbers
        if row.repeater and "port" in told:
            ports = next(len(r["port"]) for r in self.tree["repeater"] if r["name"] == row.name)
            self.rule(1 <= told["port"] <= ports)
        if "frame" in told:
            self.rule(1 <= told["frame"] <= len(self.queues[row.name].frames))
        self.rule(1 <= told.get("attempt", 1) <= 16 and told.get("draw", 0) <= 1023)
        self.rule(told.get("hit", 0) <= MOST and told.get("halves", 0) <= MOST)
        if row.what in ("sent", "given_up"):
            self.done[row.name] = self.done.get(row.name, 0) + 1
            self.rule(told["frame"] == self.done[row.name] <= self.places[row.name])

    def read_octets(self, octets):
        self.rule(64 <= octets <= (1518 if self.tree["format"] == 1 else 1522))
        line = self.next()
        self.form(re.fullmatch("octets (?:[0-9a-f]{2})*", line))
        self.rule(len(line) - 7 == 2 * (octets - 4))


def read(octets, tree, queues):
    """The rows of a state, each with its line; else the first fault is raised."""
    return Reader(octets, tree, queues).read()
