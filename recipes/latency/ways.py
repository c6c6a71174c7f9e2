"""The ways from a station to the others, along cables and through repeaters."""
import typing


class Way(typing.NamedTuple):
    """The way to a station: how many half bits it takes, and by which ports it enters repeaters. A port is the
    repeater's name and the port's number, from 1, with the half bits to it."""

    station: str
    half_bits: int
    entered: tuple


class Ways:
    """The ways of a layout, by what stands on each segment."""

    def __init__(self, layout):
        self.stations, self.ports = {}, {}
        for station in layout.stations:
            self.stations.setdefault(station.tap.segment, []).append(station)
        for repeater in layout.repeaters:
            for number, port in enumerate(repeater.ports, 1):
                self.ports.setdefault(port.segment, []).append((repeater, number, port))

    def of(self, sender):
        """The way to each other station."""
        todo, found = [(sender.tap, 0, (), None)], []
        while todo:
            tap, gone, entered, last = todo.pop()
            for station in self.stations.get(tap.segment, ()):
                if station is not sender:
                    found.append(Way(station.name, gone + abs(station.tap.at - tap.at), entered))
            for repeater, number, port in self.ports.get(tap.segment, ()):
                if repeater is not last:
                    here = gone + abs(port.at - tap.at)
                    through = entered + ((repeater.name, number, here),)
                    todo += ((other, here + repeater.delay, through, repeater) for other in repeater.ports
                             if other is not port)
        return found
