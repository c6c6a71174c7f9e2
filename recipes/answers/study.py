"""What a flood does to a file over stop-and-wait: runs, each kept as a file, and a table of them."""
import json
import multiprocessing
import pathlib
import random
import signal
import struct
import sys
import tempfile
import typing

import answers
import transfer

# In half bits: what a frame of so many octets and the gap after it take of the channel.
PREAMBLE, OCTET, GAP = 128, 16, 192

LAYOUT = """# A sender a and a receiver b of a file, and between them a station f that floods the segment.
format = 1
seed = {seed}
until_bits = {bits}
segment = [{{ name = "x" }}]
station = [
  {{ name = "a", segment = "x", at = 0 }},
  {{ name = "f", segment = "x", at = 20, load = "{load}" }},
  {{ name = "b", segment = "x", at = 40 }},
]
"""

# From a station and to one that nobody has, of a type for local experiments.
FLOOD = bytes.fromhex("0200000000090200000000ff88b6")


# The file has 32 blocks and is repeated after 20 ms. A run has 50 ms, or as often twice as many as the file takes, but
# 400 ms at most.
FILE, TIMEOUT = 16_384, answers.microseconds(20_000)
SHORTEST, LONGEST = answers.microseconds(50_000), answers.microseconds(400_000)


class Point(typing.NamedTuple):
    """A run: the octets of the flood's frames with the check sequence, for how many half bits the stations of the file
    think, which share of the channel the flood asks for, and the seed."""

    octets: int
    thinks: int
    share: float
    seed: int

    @property
    def name(self):
        return "-".join(f"{word}-{value}" for word, value in self._asdict().items())


HEAD = ("octets,thinks,share,seed,megabits,done_ms,blocks,repeated,doubles,a_collided,b_collided,f_collided,given_up,"
        "sending_ms,deferring_ms,colliding_ms").split(",")


def write_flood(path, times, octets):
    """A capture of frames of so many octets, each due at a half bit. A record of no octets, which is skipped, makes
    the capture begin at half bit 0."""
    frame = FLOOD.ljust(octets - 4, b"\0")
    records = [struct.pack("<IHHiIII", 0xA1B23C4D, 2, 4, 0, 0, 262144, 1), bytes(16)]
    for at in times:
        seconds, nanoseconds = divmod(at * answers.NANOSECONDS, 1_000_000_000)
        records.append(struct.pack("<IIII", seconds, nanoseconds, len(frame), len(frame)) + frame)
    path.write_bytes(b"".join(records))


def flood_times(point):
    """When the flood's frames are due, at random: with the frames and their gaps it asks for its share."""
    dice, at, times = random.Random(point.seed), 0.0, []
    while point.share:
        at += dice.expovariate(point.share / (PREAMBLE + OCTET * point.octets + GAP))
        if at >= LONGEST:
            break
        times.append(int(at))
    return times


def write_layout(folder, seed, half_bits, octets, times):
    """The layout and the flood's load in a folder. Returns the layout's path."""
    write_flood(folder / "f.pcap", times, octets)
    path = folder / "flooded.toml"
    path.write_text(LAYOUT.format(seed=seed, bits=half_bits // 2, load="f.pcap"))
    return path


def stations(file, thinks, timeout):
    return {"a": transfer.Sender(1, 2, file, thinks, timeout), "b": transfer.Receiver(2, 1, thinks)}


def waits(played, names):
    """For how many half bits the stations' frames were sent, waited for their first attempt, and went on from there to
    the last one because attempts collided; of the frames that were sent or given up."""
    queues = {name: sorted(one.ready for one in played.sends if one.station == name) for name in names}
    first, free = {}, dict.fromkeys(names, 0)
    sending = deferring = colliding = 0
    for line in played.log:
        at, device, name, what, *rest = line.split()
        if device != "station" or name not in names or what not in ("sent", "collided", "given_up"):
            continue
        at, number, start = int(at), int(rest[1]), int(rest[3])
        begun = first.setdefault((name, number), start)
        if what == "collided":
            continue
        deferring += begun - max(free[name], queues[name][number - 1])
        colliding += (start if what == "sent" else at) - begun
        sending += at - start if what == "sent" else 0
        free[name] = at
    return sending, deferring, colliding


def milliseconds(half_bits):
    return f"{answers.in_microseconds(half_bits) / 1000:.3f}"


def play(point, file):
    """The play of a point, in a run that is as long as it takes."""
    with tempfile.TemporaryDirectory() as folder:
        layout = write_layout(pathlib.Path(folder), point.seed, LONGEST, point.octets, flood_times(point))
        half_bits = SHORTEST
        while True:
            played = answers.play(layout, stations(file, point.thinks, TIMEOUT), until=half_bits)
            if played.stations["a"].done is not None or half_bits == LONGEST:
                return played, half_bits
            half_bits = min(2 * half_bits, LONGEST)


def measure(point):
    """A line of the table."""
    file = random.Random(0).getrandbits(8 * FILE).to_bytes(FILE, "big")
    played, half_bits = play(point, file)
    sender, receiver, counters = played.stations["a"], played.stations["b"], played.counters
    took, come, done = half_bits, sender.number * transfer.FULL, ""
    if sender.done is not None:
        took, come, done = sender.done, len(file), milliseconds(sender.done)
    if not file.startswith(receiver.file) or len(receiver.file) < come:
        raise answers.AnswersError(f"{point.name}: what was received isn't what was sent")
    return (*point, f"{8 * come / answers.in_microseconds(took):.4f}", done,
            sender.blocks, sender.repeated, receiver.doubles, *(counters[name]["collided"] for name in "abf"),
            counters["a"]["given_up"] + counters["b"]["given_up"], *map(milliseconds, waits(played, ("a", "b"))))


def keep(point, folder):
    """Measures a point unless a file says what it gave. The file is there whole or not at all."""
    path = folder / f"{point.name}.json"
    if not path.exists():
        part = path.with_suffix(".new")
        part.write_text(json.dumps(measure(point)))
        part.replace(path)
    return json.loads(path.read_text())


def table(points, folder, jobs):
    """The lines of the table, in the order of the points, so many of which are measured at a time. Where this is ended,
    those that are under way end too."""
    folder.mkdir(parents=True, exist_ok=True)
    signal.signal(signal.SIGTERM, lambda number, frame: sys.exit(128 + number))
    with multiprocessing.Pool(jobs, signal.signal, (signal.SIGINT, signal.SIG_IGN)) as pool:
        return [HEAD, *pool.starmap(keep, [(point, folder) for point in points], chunksize=1)]
