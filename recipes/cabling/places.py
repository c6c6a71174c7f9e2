"""The layout of a plan: places and delays in half bits, and how far they are from the truth.

A repeater's delay between two ports is, as system model 2 has it, half the middle base of the one port's medium and
half of the other's, and the delay of their AUI cables beyond 2 m; one layout has one delay for all ports, so what a
port differs by goes into the length of its link. A station's AUI cable goes into the length of its link; on coaxial
cable it goes into the place of the first and of the last tap, and is left out elsewhere."""
import fractions
import json
import math
import textwrap

from paths import passes
from plan import Fault
from standard import AUI_PER_METRE, Decimal, text

MOST_PLACE, MOST_DELAY = 2000, 200
HALF = fractions.Fraction(1, 2)


def nearest(number):
    """The whole number that is nearest, the upper one of two."""
    return math.floor(fractions.Fraction(number) + HALF)


def nearest_apart(wanted):
    """For numbers in order the whole ones in the same order, no two alike, for which the sum of squares of what each is
    moved by is least. Less its index each may equal the one before; so neighbours that aren't in order are pooled to
    their mean (isotonic regression), which is rounded."""
    pools = []
    for index, number in enumerate(wanted):
        pools.append((fractions.Fraction(number) - index, 1))
        while len(pools) > 1 and pools[-2][0] * pools[-1][1] > pools[-1][0] * pools[-2][1]:
            (last, last_count), (before, count) = pools.pop(), pools.pop()
            pools.append((before + last, count + last_count))
    means = [nearest(summed / count) for summed, count in pools for _ in range(count)]
    return [mean + index for index, mean in enumerate(means)]


class Layout:
    """Of a plan the place of each tap and the delay of each repeater, in half bits."""

    def __init__(self, plan):
        self.plan = plan
        self.delays, self.places = {}, {}
        for repeater in plan.repeaters.values():
            self.delays[repeater.name] = self.delay(repeater)
        for segment in plan.segments:
            places = self.link(segment) if segment.medium.is_link else self.cable(segment)
            if places and max(places.values()) > MOST_PLACE:
                raise Fault(segment.line, f"{segment.name} would need places up to {max(places.values())} half bits, "
                            f"and a layout has {MOST_PLACE}: make it shorter")
            self.places.update(places)

    def share(self, port):
        """What a port has of its repeater's delay, in half bits."""
        delay = self.plan.repeaters[port.device].delay
        own = port.segment.medium.middle / 2 if delay is None else delay
        return own + AUI_PER_METRE * port.excess

    def delay(self, repeater):
        """Of two ports the sum of both shares; of more twice a share in the middle of those on coaxial cable, which
        can't go anywhere else, or else of all."""
        shares = [self.share(port) for port in repeater.ports]
        if len(shares) > 2:
            coaxial = [self.share(port) for port in repeater.ports if not port.segment.medium.is_link]
            shares = coaxial or shares
        delay = nearest(max(shares) + min(shares)) or 1
        if delay > MOST_DELAY:
            raise Fault(repeater.line, f"the repeater {repeater.name} would need a delay of {delay} half bits with its "
                        f"AUI cables, and a layout has {MOST_DELAY}: make them shorter")
        return delay

    def beyond(self, tap):
        """What a link is longer by for the AUI cable of a station at its end, or for a repeater of more than two ports
        whose delay this port differs from."""
        if tap.is_station:
            return AUI_PER_METRE * tap.excess
        if len(self.plan.repeaters[tap.device].ports) == 2:
            return Decimal(0)
        return self.share(tap) - Decimal(self.delays[tap.device]) / 2

    def link(self, segment):
        first, last = segment.taps
        length = segment.medium.per_metre * segment.length + self.beyond(first) + self.beyond(last)
        return {first: 0, last: max(nearest(length), 1)}

    def cable(self, segment):
        taps = sorted(segment.taps, key=lambda tap: tap.at)
        wanted = [segment.medium.per_metre * tap.at for tap in taps]
        for end, sign in ((0, -1), (-1, 1)):
            if taps and taps[end].is_station:
                wanted[end] += sign * AUI_PER_METRE * taps[end].excess
        places = nearest_apart(wanted)
        shift = max(-min(places, default=0), 0)
        return {tap: place + shift for tap, place in zip(taps, places)}

    def cable_way(self, hops):
        """The way of a path along its cables in the layout."""
        return sum(abs(self.places[hop.first] - self.places[hop.last]) for hop in hops)

    def repeater_way(self, hops):
        """The way of a path through its repeaters in the layout."""
        return sum(self.delays[came.device] for came, _ in passes(hops))

    def way(self, hops):
        return self.cable_way(hops) + self.repeater_way(hops)

    def true_way(self, hops):
        """The way of a path as the plan has it, in half bits."""
        cables = sum(hop.segment.medium.per_metre * hop.metres for hop in hops)
        stations = AUI_PER_METRE * (hops[0].first.excess + hops[-1].last.excess)
        return cables + stations + sum(self.share(came) + self.share(left) for came, left in passes(hops))

    def difference(self, hops):
        """By how many nanoseconds the way of a path is longer in the layout than in the plan."""
        return 50 * (self.way(hops) - self.true_way(hops))


def quoted(text_of_key):
    """A text of TOML."""
    return json.dumps(text_of_key, ensure_ascii=False).replace("\x7f", "\\u007f")


def row(head, values, comments=()):
    """A row of a layout. A comment stands behind the value of its key."""
    lines = [f"[[{head}]]"]
    for key, value in values.items():
        line = f"{key} = {value if isinstance(value, int) else quoted(value)}"
        lines.append(line.ljust(24) + f"# {comments[key]}" if key in comments else line)
    return "\n".join(lines) + "\n"


def where(tap):
    """What a comment of a layout says of a tap."""
    aui = f", AUI cable of {text(tap.aui)} m" if tap.aui else ""
    return f"{text(tap.at)} m{aui}"


def layout_text(layout, greatest):
    """The text of a layout. greatest says how far it is from the truth."""
    plan = layout.plan
    head = textwrap.wrap(f"Made from a plan in metres by recipes/cabling. {greatest}", 118)
    parts = ["".join(f"# {line}\n" for line in head)]
    parts.append("".join(f"{key} = {value}\n" for key, value in plan.settings.items()))
    for segment in plan.segments:
        comment = {"name": f"{segment.medium.name}, {text(segment.length)} m"}
        parts.append(row("segment", {"name": segment.name}, comment))
    for tap, extras in plan.stations:
        values = {"name": tap.device, "segment": tap.segment.name, "at": layout.places[tap], **extras}
        parts.append(row("station", values, {"at": where(tap)}))
    for name, delay in layout.delays.items():
        text_of = row("repeater", {"name": name, "delay": delay})
        for port in plan.repeaters[name].ports:
            values = {"segment": port.segment.name, "at": layout.places[port]}
            text_of += row("repeater.port", values, {"at": where(port)})
        parts.append(text_of)
    parts += [row("send", send) for send in plan.sends]
    return "\n".join(parts)
