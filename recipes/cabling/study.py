"""Random plans within the rules of segments and repeaters: how the verdict of netsim check and the path delay value
agree.

For each plan the two are compared by what is left to their limits, in bit times: 575 less the path delay value, and
512 less half of netsim's round trip."""
import collections
import concurrent.futures
import random
import statistics
import typing

import making
from standard import MEDIA, MOST_DELAY, MOST_POPULATED, SLOT, Decimal, text

MOST_STATIONS = 3

# How often each medium is drawn: long ones more often, so that many paths come near the limit.
WEIGHTS = {"10BASE5": 2, "10BASE2": 1, "FOIRL": 3, "10BASE-T": 1, "10BASE-FL": 3}


class Outcome(typing.NamedTuple):
    segments: int
    standard_left: Decimal
    netsim_left: Decimal
    difference: Decimal

    @property
    def stricter(self):
        """By how many bit times less netsim leaves than the standard."""
        return self.standard_left - self.netsim_left

    @property
    def case(self):
        """Whether the standard's value holds, and netsim's verdict is within."""
        return self.standard_left >= 0, self.netsim_left > 0


def tap(kind, name, at=None, aui=0):
    lines = [f"[[segment.{kind}]]", f'name = "{name}"']
    lines += [] if at is None else [f"at = {at}"]
    lines += [f"aui = {aui}"] if aui else []
    return "\n".join(lines) + "\n"


def segment(name, medium, length):
    return f'[[segment]]\nname = "{name}"\nmedium = "{medium.name}"\nlength = {length}\n'


def chain_of(draw):
    """The media of two to five segments in a row, and which of them have stations: both ends, and of five coaxial ones
    at most three."""
    count = draw.randint(2, 5)
    media = [MEDIA[name] for name in draw.choices(list(WEIGHTS), WEIGHTS.values(), k=count)]
    has_stations = [number in (0, count - 1) or not medium.is_link and draw.random() < 0.7
                    for number, medium in enumerate(media)]
    for number in range(1, count - 1):
        coaxial = sum(has and not medium.is_link for has, medium in zip(has_stations, media))
        if count == 5 and coaxial > MOST_POPULATED and not media[number].is_link:
            has_stations[number] = False
    return media, has_stations


def random_plan(number):
    """The text of a plan, which depends on its number alone."""
    draw = random.Random(number)
    media, has_stations = chain_of(draw)
    parts = []
    for place, (medium, has) in enumerate(zip(media, has_stations)):
        repeaters = [f"r{joint}" for joint in (place, place + 1) if 0 < joint < len(media)]
        parts.append(random_segment(draw, place, medium, repeaters, has))
    for joint in range(1, len(media)):
        if draw.random() < 0.3:
            parts.append(segment(f"branch{joint}", MEDIA["10BASE-T"], draw.randint(5, 100)))
            parts += [tap("station", f"t{joint}"), tap("repeater", f"r{joint}")]
    return "".join(parts)


def random_segment(draw, place, medium, repeaters, has_stations):
    """The text of a segment of the chain, with stations if it shall have some."""
    length = draw.randint(int(medium.most_metres) // 10, int(medium.most_metres))
    parts = [segment(f"x{place}", medium, length)]
    stations = [f"s{place}-{number}" for number in range(draw.randint(1, MOST_STATIONS) if has_stations else 0)]
    if medium.is_link:
        stations = stations[: 2 - len(repeaters)]
        parts += [tap("station", name) for name in stations] + [tap("repeater", name) for name in repeaters]
        return "".join(parts)
    taps = [("station", name) for name in stations] + [("repeater", name) for name in repeaters]
    places = draw.sample(range(int(length / medium.least_gap) + 1), len(taps))
    for (kind, name), at in zip(taps, places):
        aui = draw.randint(2, 50) if medium.name == "10BASE5" and draw.random() < 0.5 else 0
        parts.append(tap(kind, name, at * medium.least_gap, aui))
    return "".join(parts)


def outcome(number):
    """What comes of a plan, which breaks no rule but that of the path delay value."""
    made = making.make(random_plan(number).encode())
    survey = made.survey
    assert made.broken_count == (survey.delay.broken > 0), number
    return Outcome(survey.segments.value, MOST_DELAY - survey.delay.value,
                   SLOT - Decimal(survey.round_trip.value) / 2, survey.difference.value)


def outcomes(count, jobs):
    with concurrent.futures.ProcessPoolExecutor(jobs) as pool:
        return list(pool.map(outcome, range(count), chunksize=20))


HEAD = ("segments", "plans", "both_hold", "neither_holds", "standard_alone", "netsim_alone", "stricter_least",
        "stricter_median", "stricter_most", "difference_median_ns", "difference_most_ns")


def table(found):
    """How often the two agree, by the segments of the longest path, and then for all: a row each."""
    rows = [HEAD]
    for count in (*sorted({one.segments for one in found}), "all"):
        some = [one for one in found if count in (one.segments, "all")]
        cases = collections.Counter(one.case for one in some)
        stricter = [one.stricter for one in some]
        differences = [one.difference for one in some]
        rows.append((count, len(some), cases[True, True], cases[False, False], cases[True, False], cases[False, True],
                     text(min(stricter)), text(statistics.median_low(stricter)), text(max(stricter)),
                     text(statistics.median_low(differences)), text(max(differences))))
    return rows


def histogram(found):
    """How many plans there are by how much stricter netsim is, in whole bit times, rounded down, and by segments."""
    counts = sorted({one.segments for one in found})
    bins = collections.Counter((int(one.stricter // 1), one.segments) for one in found)
    least, most = min(bins)[0], max(bins)[0]
    rows = [("stricter", *(f"segments_{count}" for count in counts))]
    return rows + [(place, *(bins[place, count] for count in counts)) for place in range(least, most + 1)]
