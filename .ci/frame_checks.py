"""What .ci/frames holds a table against: the run's own counters, log and captures, by the readers of soak/, which share
no code with the reading that is looked at. A check yields a sentence for each thing that isn't as it must be; its text
says what it is worth."""
import collections
import typing

import layouts
from runs import line_time, padded

HEAD = "station,frame,octets,ready,first,start,end,attempts,outcome,reached,missed"
SENDINGS = ("sent", "collided", "given_up", "cut")


class Line(typing.NamedTuple):
    """A line of a table; a field that is empty is None."""

    station: str
    frame: int
    octets: int
    ready: int
    first: typing.Optional[int]
    start: typing.Optional[int]
    end: typing.Optional[int]
    attempts: int
    outcome: str
    reached: typing.Optional[int]
    missed: typing.Optional[int]


def read_table(text):
    """The lines of a table; a ValueError where it has another form."""
    head, *lines, last = text.split("\n")
    if head != HEAD or last:
        raise ValueError(f"the head is {head!r}, and behind the last line feed is {last!r}")
    return [Line(*map(field_of, range(len(line.split(","))), line.split(","))) for line in lines]


def field_of(place, text):
    if place in (0, 8):
        return text
    return int(text) if text else None


def check_queues(case, table):
    """Who has which frame, how long it is and when it is ready, by soak/'s reader of loads. Finds each wrong reading of
    loads and sends: what is skipped, half bit 0, whose turn it is, the pad. One that two readers share isn't found."""
    wanted = [(name, number, line_time(octets) // 16 - 8, ready) for name, queue in zip(case.stations, case.queues)
              for number, (ready, octets) in enumerate(queue.frames, 1)]
    if [tuple(line[:4]) for line in table] != wanted:
        yield "its frames, their octets or when they are ready"


def check_drawn(case, table):
    """Frames of recipes/traffic say in their octets when they are ready. Finds a wrong reading of times that soak/
    shares; says nothing of other frames."""
    frames = [frame for queue in case.queues for frame in queue.frames]
    drawn = {place: int.from_bytes(octets[20:24], "big") for place, (_, octets) in enumerate(frames)
             if octets[12:14] == b"\x88\xb5"}
    if any(table[place].ready != ready for place, ready in drawn.items()):
        yield "when a frame of traffic is ready"


def check_sums(case, table):
    """The program's own counters, and its summary, against the table's outcomes and attempts: rows `sent` are those of
    the summary. Finds an attempt that is left out or counted twice, and whom it is counted for, but no wrong time."""
    counted = collections.Counter()
    for line in table:
        counted[line.station, line.outcome] += 1
        counted[line.station, "attempts"] += line.attempts
    for name in case.stations:
        own = case.counters[name]
        wanted = {"sent": own["sent"], "given_up": own["given_up"], "cut": own["cut"],
                  "left": own["left"] - own["cut"], "attempts": own["sent"] + own["collided"] + own["cut"]}
        if any(counted[name, what] != count for what, count in wanted.items()):
            yield f"the outcomes of {name}, whose counters give {wanted}"
    sent = int(case.said[2].split()[1])
    if sum(line.outcome == "sent" for line in table) != sent:
        yield f"the rows sent, of which the summary has {sent}"


def check_rows(case, table):
    """The rows of the log, by soak/'s reader: a frame's first attempt, its last one, which has its number in the row,
    and its end. Finds a time that is taken from another row; an attempt's number is the log's own count of attempts."""
    told = collections.defaultdict(list)
    for row in case.rows:
        if row.what in SENDINGS:
            told[row.name, row.numbers["frame"]].append(row)
    for line in table:
        rows = told[line.station, line.frame]
        wanted = (None, None, None, 0, "left")
        if rows:
            last, is_over = rows[-1], rows[-1].what != "collided"
            wanted = (rows[0].numbers["start"], last.numbers["start"], last.t if is_over else None,
                      last.numbers.get("attempt", 16), last.what if is_over else "left")
        if tuple(line[4:9]) != wanted:
            yield f"{line.station} {line.frame}: {line[4:9]}, where the log has {wanted}"


def check_lengths(case, table):
    """What must hold of each line alone: a frame is ready no earlier than the one before it and no later than its first
    attempt, and `sent` is as long as its octets say. Finds little that others don't, but needs no reader of soak/."""
    before = {}
    for line in table:
        is_sent = line.outcome == "sent"
        times = [time for time in (before.get(line.station, 0), line.ready, line.first, line.start, line.end)
                 if time is not None]
        before[line.station] = line.ready
        if times != sorted(times) or (is_sent and line.end - line.start != 128 + 16 * line.octets):
            yield f"{line.station} {line.frame}: its times don't fit each other"
        if (line.reached is not None, line.missed is not None) != (is_sent, is_sent):
            yield f"{line.station} {line.frame}: reached and missed are for frames sent alone"


def check_received(case, table):
    """The sum of `reached` is the number of rows `received`, which holds for ordinary octets. Finds most wrong ways and
    ports; not two errors that make up for each other, nor which frame was counted."""
    reached = sum(line.reached or 0 for line in table)
    received = sum(row.what == "received" for row in case.rows)
    if reached != received or received != int(case.said[2].split()[13]):
        yield f"{reached} are reached, and the log has {received} rows received"


def check_captures(case, table):
    """Whose frames were received, by the octets in the captures; in random runs each frame differs from the others.
    Finds a frame that is said to have reached a station which received another one. It reads no way and no port."""
    reached, captured = collections.Counter(), collections.Counter(case.captured())
    frames = [octets for queue in case.queues for _, octets in queue.frames]
    for line, octets in zip(table, frames):
        reached[padded(octets)] += line.reached or 0
    if +reached != captured:
        yield "which frames were received, by the captures"


def check_others(case, table):
    """`reached` and `missed` together are the stations that the end of the frame comes to within the run, by soak/'s
    own walk over the layout. Finds a sender that is counted, a wrong way, and a wrong end of the run."""
    far = {name: layouts.reach(case.tree, number) for number, name in enumerate(case.stations)}
    for line in table:
        if line.outcome == "sent":
            ways = [way for other, way in far[line.station].items() if case.stations[other] != line.station]
            within = sum(line.end + way < case.half_bits for way in ways)
            if line.reached + line.missed != within:
                yield f"{line.station} {line.frame}: {line.reached} and {line.missed}, not {within} together"


def check_none_missed(case, table):
    """Where the network is within and no port is closed or halted, no frame that was sent is missed by anybody, since
    its collisions are all detected. Finds stations that are said to be missed, without a reading of ways."""
    guards = {"closed", "opened", "halted"}
    if case.said[0].startswith("within") and not any(row.what in guards for row in case.rows):
        if any(line.missed for line in table):
            yield "a frame is missed, though the network is within"


CHECKS = (check_queues, check_drawn, check_sums, check_rows, check_lengths, check_received, check_captures,
          check_others, check_none_missed)


def complaints(case, text):
    """What isn't as it must be of the table of a run, with the name of the check that says so."""
    try:
        table = read_table(text)
    except (ValueError, TypeError) as error:
        return [("form", f"{case.folder.name}: {error}")]
    return [(check.__name__, f"{case.folder.name}: {what}") for check in CHECKS for what in guarded(check, case, table)]


def guarded(check, case, table):
    """What a check yields; a table that it can't go through is a complaint, too."""
    try:
        return list(check(case, table))
    except (IndexError, TypeError, KeyError) as error:
        return [f"can't be gone through: {error!r}"]
