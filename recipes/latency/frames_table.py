"""The table of what became of each frame: when it was ready, its attempts, its end, and whom it reached."""
import bisect

from log_file import SENDINGS
from ways import Ways

HEAD = "station,frame,octets,ready,first,start,end,attempts,outcome,reached,missed"


class Tries:
    """What a log tells of a frame: the starts of its first and its last attempt, and how many there are; how it ended,
    and in which half bit."""

    def __init__(self, first):
        self.first, self.start, self.attempts, self.outcome, self.end = first, first, 0, "left", ""

    def add(self, row):
        self.start = row.numbers[1]
        self.attempts += 1
        if row.what != "collided":
            self.outcome, self.end = row.what, row.at


class Told:
    """What a log tells of the frames, by station and number; of what was received, by the octets; and of the ports that
    were closed or opened, by repeater and number."""

    def __init__(self, rows):
        self.tries, self.received, self.guards = {}, {}, {}
        for row in rows:
            if row.what in SENDINGS:
                frame = row.name, row.numbers[0]
                if frame not in self.tries:
                    self.tries[frame] = Tries(row.numbers[1])
                self.tries[frame].add(row)
            elif row.what == "received":
                self.received.setdefault(row.numbers[0], set()).add((row.name, row.at))
            elif row.what in ("closed", "opened"):
                self.guards.setdefault((row.name, row.numbers[0]), []).append((row.at, row.what))

    def is_open(self, repeater, port, at):
        """Whether a port is open in a half bit. A row bears on the half bits after its own."""
        changes = self.guards.get((repeater, port), ())
        before = bisect.bisect_left(changes, (at,))
        return before == 0 or changes[before - 1][1] == "opened"

    def are_open(self, entered, end):
        """Whether each port by which a frame enters a repeater is open when its end comes there."""
        return all(self.is_open(repeater, port, end + gone) for repeater, port, gone in entered)


def whom(told, ways, octets, end, half_bits):
    """How many other stations a frame reached, and how many of those that it could reach within the run it missed."""
    received = told.received.get(octets, set())
    reached = missed = 0
    for station, gone, entered in ways:
        if (station, end + gone) in received and told.are_open(entered, end):
            reached += 1
        elif end + gone < half_bits:
            missed += 1
    return reached, missed


def lines(layout, queues, rows):
    """The lines of the table, without their line feeds."""
    told, all_ways = Told(rows), Ways(layout)
    yield HEAD
    for station in layout.stations:
        ways = None
        for number, frame in enumerate(queues[station.name], 1):
            fields = station.name, number, frame.octets, frame.ready
            tries = told.tries.get((station.name, number))
            if tries is None:
                fields += "", "", "", 0, "left", "", ""
            else:
                fields += tries.first, tries.start, tries.end, tries.attempts, tries.outcome
                if tries.outcome == "sent":
                    ways = all_ways.of(station) if ways is None else ways
                    fields += whom(told, ways, frame.octets, tries.end, layout.half_bits)
                else:
                    fields += "", ""
            yield ",".join(map(str, fields))
