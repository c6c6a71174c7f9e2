"""What a plan comes to: the worst of its paths, and the rules that it breaks, each with what would mend it."""
import fractions
import itertools
import math
import typing

import paths
from standard import (GAP, MOST_AUI, MOST_DELAY, MOST_POPULATED, MOST_REPEATERS, MOST_SEGMENTS,
                      MOST_VARIABILITY, Decimal, text)


class Worst:
    """The first path of those with the greatest value, and how many break a rule."""

    def __init__(self, most=None):
        self.most = most
        self.value, self.hops, self.broken = None, None, 0

    def see(self, value, hops):
        if self.value is None or value > self.value:
            self.value, self.hops = value, hops
        if self.most is not None and value > self.most:
            self.broken += 1

    @property
    def names(self):
        """The two stations of the path."""
        return self.hops[0].first.device, self.hops[-1].last.device


class Survey:
    """The worst of all pairs of stations. A path of one segment has no path delay value; that at most three coaxial
    segments have stations holds of paths of five."""

    def __init__(self, plan, layout):
        self.segments = Worst(MOST_SEGMENTS)
        self.populated = Worst(MOST_POPULATED)
        self.delay = Worst(MOST_DELAY)
        self.variability = Worst(MOST_VARIABILITY)
        self.round_trip, self.difference = Worst(), Worst()
        for hops in paths.pairs(plan):
            self.segments.see(len(hops), hops)
            if len(hops) >= MOST_SEGMENTS:
                self.populated.see(len(paths.populated(hops)), hops)
            if len(hops) > 1:
                self.delay.see(paths.total(paths.delay_terms(hops)), hops)
                self.variability.see(paths.total(paths.variability_terms(hops)), hops)
            self.round_trip.see(2 * layout.way(hops) + 2 * int(GAP), hops)
            self.difference.see(abs(layout.difference(hops)), hops)


class Spacing(typing.NamedTuple):
    gap: Decimal
    first: paths.Tap
    last: paths.Tap


def spacings(segment):
    """The neighbours on a segment and how far apart they are."""
    taps = sorted(segment.taps, key=lambda tap: tap.at)
    return [Spacing(last.at - first.at, first, last) for first, last in itertools.pairwise(taps)]


def broken_rules(plan, survey):
    """The rules that a plan breaks, each in a sentence with its numbers, and how it is mended."""
    return [*itertools.chain(*map(broken_on, plan.segments)), *broken_paths(survey), *broken_values(survey)]


def broken_on(segment):
    """The rules that a segment breaks."""
    kind, name = segment.medium, segment.name
    if segment.length > kind.most_metres:
        yield (f"{name} has {text(segment.length)} m, and {kind.name} at most {text(kind.most_metres)}: make it "
               f"{text(segment.length - kind.most_metres)} m shorter, or part it by a repeater")
    if len(segment.taps) > kind.most_taps:
        yield (f"{name} has {len(segment.taps)} taps, and {kind.name} at most {text(kind.most_taps)}: move "
               f"{len(segment.taps) - kind.most_taps} to another segment")
    for spacing in spacings(segment):
        if spacing.gap < kind.least_gap:
            yield (f"{spacing.first.device} and {spacing.last.device} on {name} are {text(spacing.gap)} m apart, and "
                   f"taps of {kind.name} at least {text(kind.least_gap)}: move one by "
                   f"{text(kind.least_gap - spacing.gap)} m")
    for tap in segment.taps:
        if tap.aui > MOST_AUI:
            yield (f"the AUI cable of {tap.device} on {name} has {text(tap.aui)} m, at most {text(MOST_AUI)}: make it "
                   f"{text(tap.aui - MOST_AUI)} m shorter")


BRIDGE = "or put a bridge in place of a repeater"


def of_pairs(worst):
    """How many pairs break a rule, and which is the first of the worst."""
    others = f" ({worst.broken} pairs break this rule, the worst is named)" if worst.broken > 1 else ""
    return "{} to {}".format(*worst.names), others


def broken_paths(survey):
    """What paths break of the rule of repeaters."""
    if survey.segments.broken:
        pair, others = of_pairs(survey.segments)
        count = survey.segments.value
        yield (f"{pair} passes {count} segments and {count - 1} repeaters, at most {MOST_SEGMENTS} and "
               f"{MOST_REPEATERS}: take {count - MOST_SEGMENTS} of each off the way, {BRIDGE}{others}")
    if survey.populated.broken:
        pair, others = of_pairs(survey.populated)
        names = [segment.name for segment in paths.populated(survey.populated.hops)]
        yield (f"{pair} passes {len(names)} coaxial segments with stations ({', '.join(names)}), of five segments at "
               f"most {MOST_POPULATED}: move the stations off {len(names) - MOST_POPULATED} of them, {BRIDGE}{others}")


def broken_values(survey):
    """What paths break of system model 2."""
    if survey.delay.broken:
        pair, others = of_pairs(survey.delay)
        over = survey.delay.value - MOST_DELAY
        yield (f"{pair} has a path delay value of {text(survey.delay.value)} bit times, at most {text(MOST_DELAY)}: "
               f"{shorter(survey.delay.hops, over)}{BRIDGE}{others}")
    if survey.variability.broken:
        pair, others = of_pairs(survey.variability)
        yield (f"{pair} has a path variability value of {text(survey.variability.value)} bit times, at most "
               f"{text(MOST_VARIABILITY)}: {fewer(survey.variability)}, {BRIDGE}{others}")


def shorter(hops, over):
    """What cables of a path, those with the most delay, can be made how much shorter so that so many bit times go."""
    terms = sorted(paths.terms_from(hops), key=lambda one: one.segment.medium.per_metre * one.metres, reverse=True)
    for count in range(1, len(terms) + 1):
        longest = terms[:count]
        rate = min(term.segment.medium.per_metre for term in longest)
        # Up to whole metres.
        metres = math.ceil(fractions.Fraction(over) / fractions.Fraction(rate))
        if metres < sum(term.metres for term in longest):
            names = " and ".join(term.segment.name for term in longest)
            return f"make {names} {'together ' if count > 1 else ''}{metres} m shorter between the two, "
    return "take a repeater off the way, "


def fewer(worst):
    """How many segments in the middle have to go so that the path variability value holds."""
    middle = sorted((term.value for term in paths.variability_terms(worst.hops)[1:]), reverse=True)
    over, count = worst.value - MOST_VARIABILITY, 0
    for value in middle:
        if over <= 0:
            break
        over, count = over - value, count + 1
    return f"take {count} of its middle segments off the way"
