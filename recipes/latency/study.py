"""How long frames wait: runs, and a table of what `netsim frames` tells of each."""
import csv
import math
import typing

import asked
import loads
import runs

HEAD = ("stations,share,seed,offered,frames,sent,given_up,left,throughput,mean_ms,median_ms,p95_ms,greatest_ms,"
        "one_queue_ms,slowest,fairness").split(",")

# Half bits of 50 ns in a millisecond.
MILLISECOND = 20_000


class Point(typing.NamedTuple):
    """A run: texts of how many stations there are, of the share that they ask for, of the seed, and of the seconds."""

    stations: str
    share: str
    seed: str
    seconds: str

    @property
    def asked(self):
        return asked.read(self._asdict())

    @property
    def run(self):
        name = "-".join(f"{word}-{text}" for word, text in self._asdict().items())
        prints = {"frames.csv": (runs.PROGRAM, "frames", "l.toml", "out.log")}
        return runs.Run(name, lambda folder: loads.write(folder, self.asked), prints=prints)


class Frame(typing.NamedTuple):
    """A line of the table of frames: whose the frame is, for how many half bits it takes the channel, when it is ready,
    what became of it, and its end if it was sent."""

    station: str
    occupied: int
    ready: int
    outcome: str
    end: int


def frames(path):
    """The frames of a table."""
    with open(path, newline="") as file:
        return [Frame(row["station"], loads.occupied(int(row["octets"])), int(row["ready"]), row["outcome"],
                      int(row["end"]) if row["outcome"] == "sent" else 0) for row in csv.DictReader(file)]


def one_queue(every, half_bits):
    """How long the same frames take that end within the run, if one queue has them all in the order in which they are
    ready, a gap apart: without stations that don't know of each other, and without collisions."""
    free, found = 0, []
    for frame in sorted(every, key=lambda frame: frame.ready):
        free = max(frame.ready, free) + frame.occupied
        if free - runs.GAP < half_bits:
            found.append(free - runs.GAP - frame.ready)
    return found


def rank(latencies, percent):
    """How many of the latencies are as many of a hundred, rounded up."""
    return math.ceil(percent * len(latencies) / 100)


def fairness(every):
    """Jain's index of the parts of what they ask for that stations get: 1 if all get the same part of it, and 1 by the
    number of stations if one gets all."""
    asks, gets = {}, {}
    for frame in every:
        asks[frame.station] = asks.get(frame.station, 0) + frame.occupied
        gets[frame.station] = gets.get(frame.station, 0) + (frame.occupied if frame.outcome == "sent" else 0)
    parts = [gets[station] / asks[station] for station in asks]
    return sum(parts) ** 2 / (len(parts) * sum(part**2 for part in parts))


def row_of(folder, point):
    """A line of the table. A frame's latency goes from when it is ready to when it was sent whole."""
    every, half_bits = frames(folder / "frames.csv"), 2 * point.asked.bits
    sent = [frame for frame in every if frame.outcome == "sent"]
    given_up = sum(frame.outcome == "given_up" for frame in every)
    latencies = sorted(frame.end - frame.ready for frame in sent)
    alone = one_queue(every, half_bits)
    times = (sum(latencies) / len(latencies), latencies[rank(latencies, 50) - 1], latencies[rank(latencies, 95) - 1],
             latencies[-1], sum(alone) / len(alone))
    shares = [sum(frame.occupied for frame in part) / half_bits for part in (every, sent)]
    slowest = sum(latencies[rank(latencies, 95) :]) / sum(latencies)
    return (*point[:3], f"{shares[0]:.4f}", len(every), len(sent), given_up, len(every) - len(sent) - given_up,
            f"{shares[1]:.4f}", *(f"{time / MILLISECOND:.4f}" for time in times), f"{slowest:.4f}",
            f"{fairness(every):.4f}")


def table(folder, points):
    return [HEAD] + [row_of(folder / point.run.name, point) for point in points]
