"""What a channel makes of a rising load: runs, and a table of them."""
import collections
import re
import typing

import asked
import loads
import runs

HEAD = ("stations,share,seed,offered,frames,sent,given_up,left,collided,throughput,collisions_a_frame,wait_ms,"
        "first_ms,wait_95_ms,idle,idle_in_backoff").split(",")
SENDING = re.compile(r"(\d+) station (\S+) (sent|collided|given_up|cut) frame (\d+) start (\d+) ")

# Half bits of 50 ns in a millisecond.
MILLISECOND = 20_000


class Point(typing.NamedTuple):
    """A run: texts of how many stations there are, of the share that they ask for, of the seed, and of the seconds."""

    stations: str
    share: str
    seed: str
    seconds: str

    @property
    def asked(self):
        return asked.read(self._asdict())

    @property
    def run(self):
        name = "-".join(f"{word}-{text}" for word, text in self._asdict().items())
        return runs.Run(name, lambda folder: loads.write(folder, self.asked))


class Sending(typing.NamedTuple):
    """A sending of a log: whose it is and of which of its frames, how it ended, and its half bits."""

    station: str
    frame: int
    kind: str
    start: int
    end: int


class Life(typing.NamedTuple):
    """Of a frame the half bits in which it is ready, and in which its first and its last attempt begins."""

    ready: int
    first: int
    last: int


def counters(folder):
    """The sums of what the stations of a run counted."""
    sums = collections.Counter()
    for line in (folder / "out.counters").read_text().splitlines():
        kind, _, *fields = line.split()
        if kind == "station":
            sums.update(dict(zip(fields[0::2], map(int, fields[1::2]))))
    return sums


def sendings(folder):
    """All sendings of a run, in order of their ends."""
    found = []
    with open(folder / "out.log") as log:
        for line in log:
            if match := SENDING.match(line):
                end, station, kind, frame, start = match.groups()
                found.append(Sending(station, int(frame), kind, int(start), int(end)))
    return found


def lives(found, queues):
    """The life of each frame that was sent."""
    firsts, ended = {}, []
    for one in found:
        first = firsts.setdefault((one.station, one.frame), one.start)
        if one.kind == "sent":
            ended.append(Life(queues[one.station][one.frame - 1].at, first, one.start))
    return ended


def idle(found, half_bits):
    """For how many half bits no station sends and no gap after a sending is left; and for how many of these there is a
    frame between two of its attempts."""
    spans, changes = {}, [(half_bits, 0, 0)]
    for one in found:
        changes += (one.start, 1, 0), (one.end + runs.GAP, -1, 0)
        first, _ = spans.get((one.station, one.frame), (one.start, 0))
        spans[one.station, one.frame] = first, half_bits if one.kind == "collided" else one.start
    for first, last in spans.values():
        changes += (first, 0, 1), (last, 0, -1)
    sum_idle = sum_backoff = sending = backing_off = before = 0
    for at, sends, backs_off in sorted(changes):
        since = min(at, half_bits) - before
        if sending == 0:
            sum_idle += since
            sum_backoff += since if backing_off else 0
        before, sending, backing_off = before + since, sending + sends, backing_off + backs_off
    return sum_idle, sum_backoff


def row_of(folder, point):
    """A line of the table. A frame waits from when it is ready until the sending begins in which it is sent."""
    wanted = point.asked
    queues = {loads.name(number): list(loads.frames(wanted, number)) for number in range(1, wanted.stations + 1)}
    half_bits = 2 * wanted.bits
    found, sums = sendings(folder), counters(folder)
    offered = sum(loads.occupied(ready.octets) for queue in queues.values() for ready in queue)
    taken = sum(one.end - one.start + runs.GAP for one in found if one.kind == "sent")
    ended = lives(found, queues)
    waits = sorted(one.last - one.ready for one in ended)
    firsts = sum(one.first - one.ready for one in ended)
    times = sum(waits) / len(waits), firsts / len(waits), waits[95 * len(waits) // 100]
    figures = (taken / half_bits, sums["collided"] / (sums["sent"] + sums["given_up"]),
               *(time / MILLISECOND for time in times), *(part / half_bits for part in idle(found, half_bits)))
    return (*point[:3], f"{offered / half_bits:.4f}", sums["queued"], sums["sent"], sums["given_up"], sums["left"],
            sums["collided"], *(f"{figure:.4f}" for figure in figures))


def table(folder, points):
    return [HEAD] + [row_of(folder / point.run.name, point) for point in points]
