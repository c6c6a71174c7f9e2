"""The report of a plan: its segments, paths and values against the standard, and what netsim says of its layout."""
import paths
from standard import (FAR_END, GAP, MOST_AUI, MOST_DELAY, MOST_POPULATED, MOST_REPEATERS, MOST_SEGMENTS,
                      MOST_VARIABILITY, SLOT, Decimal, text)
from survey import spacings


def table(rows, numbers_from):
    """Rows of words as lines, each column as wide as it needs; those from a certain one on are set to the right."""
    widths = [max(map(len, column)) for column in zip(*rows)]
    lines = []
    for row in rows:
        words = [word.rjust(width) if number >= numbers_from else word.ljust(width)
                 for number, (word, width) in enumerate(zip(row, widths))]
        lines.append("  " + "  ".join(words).rstrip() + "\n")
    return "".join(lines)


def counted(number, word):
    return f"{number} {word}" + ("" if number == 1 else "s")


def report(plan, layout, survey, verdict, broken):
    """The whole report; it ends with the rules that are broken."""
    parts = [
        f"{counted(len(plan.segments), 'segment')}, {counted(len(plan.stations), 'station')}, "
        f"{counted(len(plan.repeaters), 'repeater')}\n",
        "segments, against what their medium admits\n" + segments(plan),
        rule_of_repeaters(survey),
        *values(survey),
        f"netsim check, of the layout: {verdict}\n" + why(layout, survey),
        places(layout, survey),
        f"rules: {len(broken)} broken\n" if broken else "rules: all hold\n",
    ]
    return "\n".join(part for part in parts if part) + "".join(f"  {rule}\n" for rule in broken)


def segments(plan):
    rows = [["segment", "medium", "metres", "at most", "taps", "at most", "closest", "at least", "AUI", "at most"]]
    for segment in plan.segments:
        kind = segment.medium
        gaps = [] if kind.is_link else [spacing.gap for spacing in spacings(segment)]
        aui = max((tap.aui for tap in segment.taps), default=Decimal(0))
        rows.append([segment.name, kind.name, text(segment.length), text(kind.most_metres), str(len(segment.taps)),
                     text(kind.most_taps), text(min(gaps)) if gaps else "-",
                     "-" if kind.is_link else text(kind.least_gap), text(aui), text(MOST_AUI)])
    return table(rows, 2)


def rule_of_repeaters(survey):
    if survey.segments.value is None:
        return "rule of repeaters: no path, there are fewer than two stations\n"
    count = survey.segments.value
    rows = [["segments", str(count), str(MOST_SEGMENTS), *survey.segments.names],
            ["repeaters", str(count - 1), str(MOST_REPEATERS), *survey.segments.names]]
    if survey.populated.value is not None:
        rows.append(["coaxial segments with stations, of five", str(survey.populated.value), str(MOST_POPULATED),
                     *survey.populated.names])
    lines = [[what, value, "at most " + most, f"{first} to {last}"] for what, value, most, first, last in rows]
    return "rule of repeaters, on the worst path\n" + table(lines, 4)


def values(survey):
    """The terms of the path delay value and of the path variability value, each of its worst path."""
    if survey.delay.value is None:
        return ["path delay value: none, no path has a repeater\n"]
    delay = paths.delay_terms(survey.delay.hops)
    rows = [["end", "segment", "medium", "base", "metres", "a metre", "excess AUI", "bit times"]]
    for term in delay:
        rows.append([term.place, term.segment.name, term.segment.medium.name, text(term.base), text(term.metres),
                     text(term.segment.medium.per_metre), text(term.excess), text(term.value)])
    variability = paths.variability_terms(survey.variability.hops)
    others = [["end", "segment", "medium", "bit times"]]
    for term in variability:
        others.append([term.place, term.segment.name, term.segment.medium.name, text(term.value)])
    return [headed("path delay value", survey.delay, delay, rows, MOST_DELAY),
            headed("path variability value", survey.variability, variability, others, MOST_VARIABILITY)]


def headed(what, worst, terms, rows, most):
    first, last = worst.names
    if terms[0].segment is not worst.hops[0].segment:
        first, last = last, first
    return f"{what}, {first} to {last}: {text(worst.value)} bit times, at most {text(most)}\n" + table(rows, 3)


def why(layout, survey):
    """How the path delay value and netsim's round trip come from the same path, and why they differ."""
    if survey.delay.value is None:
        return "  There and back and the interframe gap of 192 half bits, below 1,024.\n"
    hops, terms = survey.delay.hops, paths.delay_terms(survey.delay.hops)
    cable = sum(term.cable for term in terms)
    ends = terms[0].base + FAR_END
    netsim = [Decimal(layout.cable_way(hops)), Decimal(layout.repeater_way(hops)), Decimal(0), GAP]
    standard = [cable, survey.delay.value - cable - ends, ends, Decimal(0)]
    names = ["cables and excess AUI, there and back", "repeaters, there and back", "the two ends", "interframe gap",
             "sum"]
    rows = [["{} to {}, in bit times".format(*survey.delay.names), "path delay value", "netsim check"]]
    for name, left, right in zip(names, [*standard, sum(standard)], [*netsim, sum(netsim)]):
        rows.append([name, text(left), text(right)])
    rows.append(["limit", f"at most {text(MOST_DELAY)}", f"below {text(SLOT)}"])
    rows.append(["left", text(MOST_DELAY - sum(standard)), text(SLOT - sum(netsim))])
    return table(rows, 1) + (
        "  The standard counts both ends: the left end's base, and 123 by which a right end's is above a middle's.\n"
        "  netsim counts an interframe gap, in which the far station may still begin. The rest is whole half bits and\n"
        "  delays that the plan gives; AUI cables of repeaters are in their delays there.\n")


def places(layout, survey):
    if survey.difference.value is None:
        return ""
    return "layout: " + greatest(layout, survey) + "\n"


def greatest(layout, survey):
    """How far the layout is from the truth, in a sentence."""
    if survey.difference.value is None:
        return "It has fewer than two stations."
    first, last = survey.difference.names
    hops = survey.difference.hops
    change = layout.difference(hops)
    return (f"The way between two stations differs by at most {text(abs(change))} ns from the plan's: from {first} to "
            f"{last} it has {50 * layout.way(hops)} ns in place of {text(50 * layout.true_way(hops))}.")
