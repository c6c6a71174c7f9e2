"""Slacks of small layouts, found by trial: a piece of cable or a delay is lengthened until a rule is broken. This
measures paths by its own rules and knows nothing of the program's code."""
import copy
from dataclasses import dataclass
from typing import Callable, List, Optional, Tuple

MOST_PLACE, MOST_DELAY, SLOT_TIME, INTERFRAME_GAP = 2000, 200, 1024, 192


@dataclass
class Tap:
    segment: str
    at: int


@dataclass
class Repeater:
    name: str
    delay: int
    ports: List[Tap]


@dataclass
class Net:
    segments: str
    stations: List[Tuple[str, Tap]]
    repeaters: List[Repeater]

    def taps(self) -> List[Tap]:
        return [tap for _, tap in self.stations] + [port for repeater in self.repeaters for port in repeater.ports]

    def way(self, start: Tap, goal: Tap, came: Optional[Repeater] = None) -> Optional[int]:
        """The half bits from a tap to another, on over repeaters; None where that leads nowhere."""
        if start.segment == goal.segment:
            return abs(start.at - goal.at)
        for repeater in self.repeaters:
            for port in repeater.ports:
                if repeater is came or port.segment != start.segment:
                    continue
                for other in repeater.ports:
                    rest = None if other is port else self.way(other, goal, repeater)
                    if rest is not None:
                        return abs(start.at - port.at) + repeater.delay + rest
        return None

    def worst(self) -> Tuple[int, str]:
        """The worst round trip, and the first two stations that have it."""
        found = (-1, '')
        for k, (first, start) in enumerate(self.stations):
            for second, goal in self.stations[k + 1:]:
                trip = 2 * (self.way(start, goal) or 0) + INTERFRAME_GAP
                found = (trip, f'{first} {second}') if trip > found[0] else found
        return found

    def stop(self) -> Optional[str]:
        """The rule that the layout breaks, or None."""
        trip, pair = self.worst()
        if trip >= SLOT_TIME:
            return f'pair {pair}'
        far = any(tap.at > MOST_PLACE for tap in self.taps())
        return 'bound' if far or any(repeater.delay > MOST_DELAY for repeater in self.repeaters) else None

    def slack(self, lengthen: Callable[['Net', int], None]) -> str:
        """How far something can grow and what stops it. More never helps, so that the two can be closed in on."""
        if self.stop():
            return 'over'
        passes, fails = 0, MOST_PLACE + 1
        while fails - passes > 1:
            middle = (passes + fails) // 2
            passes, fails = (passes, middle) if self.grown(lengthen, middle).stop() else (middle, fails)
        return f'slack {passes} {self.grown(lengthen, fails).stop()}'

    def grown(self, lengthen: Callable[['Net', int], None], more: int) -> 'Net':
        net = copy.deepcopy(self)
        lengthen(net, more)
        return net

    def lines(self) -> str:
        """What `slack` has to print."""
        trip, pair = self.worst()
        text = f'{"within" if trip < SLOT_TIME else "over"} {trip} {pair}\n'
        for segment in self.segments:
            places = sorted(tap.at for tap in self.taps() if tap.segment == segment)
            for low, high in zip(places, places[1:]):
                text += f'segment {segment} {low} {high} {self.slack(longer(segment, high))}\n'
        for number, repeater in enumerate(self.repeaters):
            text += f'repeater {repeater.name} {repeater.delay} {self.slack(slower(number))}\n'
        return text


def longer(segment: str, high: int) -> Callable[[Net, int], None]:
    def lengthen(net: Net, more: int) -> None:
        for tap in net.taps():
            if tap.segment == segment and tap.at >= high:
                tap.at += more
    return lengthen


def slower(number: int) -> Callable[[Net, int], None]:
    def lengthen(net: Net, more: int) -> None:
        net.repeaters[number].delay += more
    return lengthen


def small_net(k: int) -> Net:
    """Four segments and two repeaters, whose places and delays come of a number."""
    near, far, delay, other = k * 7 % 11, 110 + k * 37 % 90, 80 + k * 13 % 60, 1 + k * 29 % 90
    stations = [('a', Tap('y', far)), ('b', Tap('x', near)), ('c', Tap('z', other)), ('d', Tap('x', far)),
                ('e', Tap('w', near))]
    first = Repeater('r', delay, [Tap('x', 20), Tap('y', 12), Tap('z', 0)])
    return Net('xyzw', stations, [first, Repeater('q', other + 20, [Tap('y', 25), Tap('w', 14)])])
