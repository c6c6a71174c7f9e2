"""The paths between the stations of a plan, and what clause 13, system model 2, makes of them."""
import typing

from plan import Segment, Tap
from standard import AUI_PER_METRE, Decimal


class Hop(typing.NamedTuple):
    """A piece of a path: from a tap of a segment to another one."""

    first: Tap
    last: Tap

    @property
    def segment(self):
        return self.first.segment

    @property
    def metres(self):
        return abs(self.first.at - self.last.at)

    @property
    def excess(self):
        return self.first.excess + self.last.excess


class Term(typing.NamedTuple):
    """What a segment adds to the path delay value, in bit times."""

    place: str
    segment: Segment
    base: Decimal
    metres: Decimal
    excess: Decimal

    @property
    def cable(self):
        return self.segment.medium.per_metre * self.metres + AUI_PER_METRE * self.excess

    @property
    def value(self):
        return self.base + self.cable


def hops_from(plan, start):
    """The hops from a station to each other one, with its tap. The network is a tree, so there is one path to each."""
    todo = [(start, ())]
    while todo:
        entry, before = todo.pop()
        for tap in entry.segment.taps:
            if tap is entry:
                continue
            hops = (*before, Hop(entry, tap))
            if tap.is_station:
                yield tap, hops
            else:
                todo.extend((port, hops) for port in plan.repeaters[tap.device].ports if port is not tap)


def pairs(plan):
    """The hops between each two stations, in the order of the stations."""
    taps = [tap for tap, _ in plan.stations]
    for number, tap in enumerate(taps):
        found = dict(hops_from(plan, tap))
        for other in taps[number + 1:]:
            yield found[other]


def reverse(hops):
    return tuple(Hop(hop.last, hop.first) for hop in reversed(hops))


def passes(hops):
    """The repeaters on a path: for each the port that it comes in by and the one that it leaves by."""
    return [(before.last, after.first) for before, after in zip(hops, hops[1:])]


def populated(hops):
    """The coaxial segments with stations on a path."""
    return [hop.segment for hop in hops if hop.segment.is_populated]


def delay_terms(hops):
    """The terms of the path delay value, the first of them the left end's, in the order that gives more; none for two
    stations of one segment."""
    if len(hops) == 1:
        return []
    return max((terms_from(way) for way in (hops, reverse(hops))), key=total)


def terms_from(hops):
    terms = [Term("middle", hop.segment, hop.segment.medium.middle, hop.metres, hop.excess) for hop in hops]
    terms[0] = terms[0]._replace(place="left end", base=hops[0].segment.medium.left)
    terms[-1] = terms[-1]._replace(place="right end", base=hops[-1].segment.medium.right)
    return terms


def variability_terms(hops):
    """The terms of the path variability value, with their places and segments, in the order that gives more: the end
    that transmits, then the middle. The receiving end adds nothing."""
    if len(hops) == 1:
        return []
    return max((variability_from(way) for way in (hops, reverse(hops))), key=total)


class Variability(typing.NamedTuple):
    place: str
    segment: Segment
    value: Decimal


def variability_from(hops):
    first, *middle = [hop.segment for hop in hops[:-1]]
    terms = [Variability("transmitting end", first, first.medium.transmitting)]
    return terms + [Variability("middle", segment, segment.medium.passing) for segment in middle]


def total(terms):
    return sum((term.value for term in terms), Decimal(0))
