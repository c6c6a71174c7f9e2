"""The layout and the loads that are asked for: when which frames are ready, and captures of them."""
import itertools
import random
import struct
import typing

import runs
from asked import Fault, Fraction, place

# The most octets that netsim reads of one load, and of all.
MOST_OCTETS, MOST_OF_ALL = 67_108_864, 268_435_456

# To all stations, and a type for local experiments.
BROADCAST, KIND = b"\xff" * 6, 0x88B5

# The head of a capture with nanoseconds, and a record of no octets at time 0. netsim skips it, and begins to count half
# bits there.
HEAD = struct.pack("<IHHiIII", 0xA1B23C4D, 2, 4, 0, 0, 262144, 1) + bytes(16)
NANOSECONDS, SECOND = 50, 1_000_000_000


class Ready(typing.NamedTuple):
    """A frame of so many octets with its check sequence, and the half bit from which on it may be sent."""

    at: int
    octets: int


class Written(typing.NamedTuple):
    """How many frames there are, and which share of the channel they ask for."""

    frames: int
    share: Fraction


def occupied(octets):
    """For how many half bits a frame takes the channel: the preamble with its delimiter, the frame, and the gap."""
    return runs.PREAMBLE + runs.OCTET * octets + runs.GAP


def mean(lengths, of=lambda octets: octets):
    """The mean over a mix of lengths."""
    return sum(of(octets) * weight for octets, weight in lengths) / sum(weight for _, weight in lengths)


def mean_gap(asked, number):
    """How many half bits it takes from one frame of a station to the next, in the mean; None where it has no frames."""
    share = asked.share * asked.weights[number - 1] / sum(asked.weights)
    return mean(asked.lengths, occupied) / share if share else None


def exponential(draw):
    """A number with the exponential distribution and the mean 1, by von Neumann's way: it compares, and takes no
    logarithm, which might differ in the last digit from machine to machine."""
    for tried in itertools.count():
        first = last = draw.random()
        fallen = 1
        while (following := draw.random()) < last:
            last = following
            fallen += 1
        if fallen % 2:
            return tried + first


def poisson(draw, gap, _):
    at = 0.0
    while True:
        at += gap * exponential(draw)
        yield int(at)


def regular(draw, gap, _):
    """All gaps are the whole number that is nearest, and the first frame is ready within one."""
    step = round(gap)
    return itertools.count(int(step * draw.random()), step)


def bursts(draw, gap, size):
    """Each frame of a burst is the last one with the chance 1 / size, so that there are so many in the mean."""
    at = 0.0
    while True:
        at += gap * size * exponential(draw)
        yield int(at)
        while size * draw.random() >= 1:
            yield int(at)


WAYS = {"poisson": poisson, "regular": regular, "bursts": bursts}


def frames(asked, number):
    """The frames of a station, from 1, in order. They hang on the seed, the station's number and its own share. Of a
    generator only random() is used, which stays as it is in later versions of Python."""
    gap = mean_gap(asked, number)
    if gap is None:
        return
    draw = random.Random(1024 * asked.seed + number - 1)
    bounds = list(itertools.accumulate(float(weight) for _, weight in asked.lengths))
    for at in WAYS[asked.arrivals](draw, float(gap), float(asked.burst)):
        if at >= 2 * asked.bits:
            return
        drawn = bounds[-1] * draw.random()
        yield Ready(at, next(octets for bound, (octets, _) in zip(bounds, asked.lengths) if drawn < bound))


def address(number):
    """A locally administered address."""
    return b"\x02\0\0\0" + struct.pack(">H", number)


def record(number, count, ready):
    """A record of a capture: the station's number, which of its frames this is, from 1, and when it is ready, and
    zeros. It lacks the check sequence."""
    seconds, nanoseconds = divmod(NANOSECONDS * ready.at, SECOND)
    frame = BROADCAST + address(number) + struct.pack(">HHII", KIND, number, count, ready.at)
    return struct.pack("<IIII", seconds, nanoseconds, ready.octets - 4, ready.octets - 4) + frame.ljust(
        ready.octets - 4, b"\0")


def name(number):
    return f"s{number}"


def layout(asked):
    """The text of the layout. Station k is on segment k, and the one after the last segment on the first again."""
    segments = ["x"] if asked.segments == 1 else [f"x{number}" for number in range(1, asked.segments + 1)]
    lines = [f"# traffic {asked.words}", "format = 1", f"seed = {asked.seed}", f"until_bits = {asked.bits}"]
    for segment in segments:
        lines += ["", "[[segment]]", f'name = "{segment}"']
    for number in range(1, asked.stations + 1):
        segment = segments[(number - 1) % len(segments)]
        lines += ["", "[[station]]", f'name = "{name(number)}"', f'segment = "{segment}"',
                  f"at = {place(asked, number)}", f'load = "{name(number)}.pcap"']
    if len(segments) > 1:
        lines += ["", "[[repeater]]", 'name = "r"', f"delay = {asked.delay}"]
        for segment in segments:
            lines += ["[[repeater.port]]", f'segment = "{segment}"', "at = 0"]
    return "\n".join(lines) + "\n"


def write(folder, asked):
    """Writes the layout, as l.toml, and a load for each station."""
    (folder / "l.toml").write_text(layout(asked))
    left, count, taken = MOST_OF_ALL, 0, 0
    for number in range(1, asked.stations + 1):
        left, here = left - len(HEAD), len(HEAD)
        with open(folder / f"{name(number)}.pcap", "xb") as capture:
            capture.write(HEAD)
            for which, ready in enumerate(frames(asked, number), 1):
                octets = record(number, which, ready)
                left, here = left - len(octets), here + len(octets)
                if left < 0 or here > MOST_OCTETS:
                    raise Fault(f"netsim reads no load above {MOST_OCTETS} octets, nor {MOST_OF_ALL} of all, which "
                                f"that of {name(number)} passes: ask for fewer --seconds or a smaller --share")
                capture.write(octets)
                count, taken = count + 1, taken + occupied(ready.octets)
    return Written(count, Fraction(taken, 2 * asked.bits))
