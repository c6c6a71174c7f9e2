"""Plans: networks in metres of a kind of cable, read from TOML, with the first fault of what isn't one."""
import dataclasses
import difflib
import re
import tomllib
import typing

from lines import Lines
from standard import FREE_AUI, MEDIA, Decimal, Medium, text

NAME = re.compile(r"[A-Za-z0-9_-]{1,32}")
LEAST, MOST = Decimal("0.000001"), 1_000_000
NUMBER, WHOLE, TEXT, ROWS = "a number", "a whole number", "a text", "an array of tables"

# The keys of each kind of table: what type a value has, and whether the key must be there.
KEYS = {
    "plan": {
        "format": (WHOLE, False), "seed": (WHOLE, False), "until_bits": (WHOLE, False), "segment": (ROWS, True),
        "repeater": (ROWS, False), "send": (ROWS, False),
    },
    "segment": {
        "name": (TEXT, True), "medium": (TEXT, True), "length": (NUMBER, True), "station": (ROWS, False),
        "repeater": (ROWS, False),
    },
    "station": {
        "name": (TEXT, True), "at": (NUMBER, False), "aui": (NUMBER, False), "load": (TEXT, False),
        "lose_bits": (WHOLE, False),
    },
    "tap": {"name": (TEXT, True), "at": (NUMBER, False), "aui": (NUMBER, False)},
    "repeater": {"name": (TEXT, True), "delay": (NUMBER, True)},
    "send": {"station": (TEXT, True), "at": (WHOLE, True), "octets": (TEXT, True)},
}
DEFAULTS = {"format": 1, "seed": 1, "until_bits": 100_000}


class Fault(Exception):
    """What is wrong with a plan, in a sentence, with its line where it can be told."""

    def __init__(self, line, what):
        super().__init__(what)
        self.line = line


@dataclasses.dataclass(eq=False)
class Tap:
    """Where a station or a repeater is on a segment, in metres, and how long its AUI cable is."""

    device: str
    segment: "Segment"
    is_station: bool
    at: Decimal
    aui: Decimal
    line: typing.Optional[int]

    @property
    def excess(self):
        """The metres of the AUI cable that the bases of clause 13 don't hold."""
        return max(self.aui - FREE_AUI, Decimal(0))


@dataclasses.dataclass(eq=False)
class Segment:
    name: str
    medium: Medium
    length: Decimal
    line: typing.Optional[int]
    taps: list = dataclasses.field(default_factory=list)

    @property
    def is_populated(self):
        """Whether it is coaxial and has stations."""
        return not self.medium.is_link and any(tap.is_station for tap in self.taps)


@dataclasses.dataclass(eq=False)
class Repeater:
    """A repeater with its ports; its delay in bit times, or None where the standard's is taken."""

    name: str
    ports: list = dataclasses.field(default_factory=list)
    delay: typing.Optional[Decimal] = None
    line: typing.Optional[int] = None


@dataclasses.dataclass
class Plan:
    """A network: its segments, stations with what is taken over for each, repeaters by name, and sends; and in which
    line of its file each row stands."""

    lines: Lines
    settings: dict
    segments: list = dataclasses.field(default_factory=list)
    stations: list = dataclasses.field(default_factory=list)
    repeaters: dict = dataclasses.field(default_factory=dict)
    sends: list = dataclasses.field(default_factory=list)


def read_plan(octets):
    """The plan that a file spells."""
    try:
        document = octets.decode()
        tree = tomllib.loads(document, parse_float=Decimal)
    except UnicodeDecodeError as error:
        raise Fault(octets[: error.start].count(b"\n") + 1, "this isn't UTF-8: save the file as UTF-8") from None
    except tomllib.TOMLDecodeError as error:
        what, _, place = str(error).partition(" (at ")
        line = re.match(r"line (\d+)", place)
        last = document.rstrip("\n").count("\n") + 1
        raise Fault(int(line.group(1)) if line else last, f"this isn't TOML, mend its syntax: {what}") from None
    except (ValueError, RecursionError):
        raise Fault(None, "this isn't a plan: it has a number or a nesting that is far too long") from None
    return Reader(Lines(document)).plan(tree)


class Reader:
    """Makes a plan of the tree of a TOML document."""

    def __init__(self, lines):
        self.lines = lines
        self.devices = {}

    def fault(self, row, key, what):
        return Fault(self.lines.line(row, key), what)

    def plan(self, tree):
        top = self.fields("plan", (), tree)
        plan = Plan(self.lines, {key: top.get(key, value) for key, value in DEFAULTS.items()})
        for number, row in enumerate(top["segment"]):
            self.segment(plan, ("segment", number), row)
        for number, row in enumerate(top.get("repeater", [])):
            self.repeater(plan, ("repeater", number), row)
        for number, row in enumerate(top.get("send", [])):
            self.send(plan, ("send", number), row)
        if not plan.segments:
            raise self.fault((), "segment", "there is no segment: give at least one [[segment]]")
        look_for_loops(plan)
        return plan

    def fields(self, kind, row, table):
        """The values of a table by key, of the right types."""
        keys = KEYS[kind]
        for key in table:
            if key not in keys:
                raise self.fault(row, key, f"the key {key} isn't known here{nearest(key, keys)}; there are "
                                 f"{', '.join(keys)}")
        for key, (kind_of_value, is_needed) in keys.items():
            if key not in table and is_needed:
                raise self.fault(row, None, f"the key {key} is missing: give {kind_of_value}")
            if key in table and not fits(table[key], kind_of_value):
                raise self.fault(row, key, f"{key} has the wrong type: give {kind_of_value}{example(kind_of_value)}")
        return {key: Decimal(value) if keys[key][0] == NUMBER else value for key, value in table.items()}

    def name(self, row, values, taken):
        """The name of a row, which must be a name, and none of those that are taken."""
        name = values["name"]
        if not NAME.fullmatch(name):
            raise self.fault(row, "name", f"{name!r} is no name: take 1 to 32 of a to z, A to Z, 0 to 9, _ and -")
        if name in taken:
            raise self.fault(row, "name", f"the name {name} is taken already: give this one another")
        return name

    def number(self, row, key, number, range_of, why):
        """A number in a range, with six digits behind the point at the most."""
        least, most = range_of
        if not least <= number <= most:
            raise self.fault(row, key, f"{key} is {number}: {why}")
        if has_finer_digits(number):
            raise self.fault(row, key, f"{key} has more than six digits behind the point: leave out the last ones")
        return number

    def segment(self, plan, row, table):
        values = self.fields("segment", row, table)
        name = self.name(row, values, {segment.name for segment in plan.segments})
        if values["medium"] not in MEDIA:
            raise self.fault(row, "medium", f"there is no medium {values['medium']!r}"
                             f"{nearest(values['medium'], MEDIA)}; there are {', '.join(MEDIA)}")
        length = self.number(row, "length", values["length"], (LEAST, MOST),
                             "give metres, above 0 and at most 1,000,000")
        segment = Segment(name, MEDIA[values["medium"]], length, self.lines.line(row))
        plan.segments.append(segment)
        for number, station in enumerate(values.get("station", [])):
            self.station(plan, segment, (*row, "station", number), station)
        for number, port in enumerate(values.get("repeater", [])):
            self.port(plan, segment, (*row, "repeater", number), port)
        if segment.medium.is_link and len(segment.taps) != 2:
            raise self.fault(row, None, f"{name} is {segment.medium.name}, a link, and has {len(segment.taps)} ends: "
                             "give it two, each a station or a repeater")

    def station(self, plan, segment, row, table):
        values = self.fields("station", row, table)
        name = self.name(row, values, self.devices)
        self.devices[name] = "station"
        extras = {key: values[key] for key in ("load", "lose_bits") if key in values}
        plan.stations.append((self.tap(segment, row, name, True, values), extras))

    def port(self, plan, segment, row, table):
        values = self.fields("tap", row, table)
        taken = {device for device, kind in self.devices.items() if kind == "station"}
        name = self.name(row, values, taken)
        self.devices[name] = "repeater"
        tap = self.tap(segment, row, name, False, values)
        plan.repeaters.setdefault(name, Repeater(name, line=self.lines.line(row))).ports.append(tap)

    def tap(self, segment, row, name, is_station, values):
        if segment.medium.is_link:
            if "at" in values:
                raise self.fault(row, "at", f"{segment.name} is {segment.medium.name}, a link, which has ends and no "
                                 "places: leave out at")
            at = segment.length if segment.taps else Decimal(0)
        elif "at" not in values:
            raise self.fault(row, None, "the key at is missing: give the place in metres from the segment's end")
        else:
            at = self.number(row, "at", values["at"], (0, segment.length),
                             f"{segment.name} goes from 0 to {text(segment.length)} m, give a place on it")
        aui = self.number(row, "aui", values.get("aui", Decimal(0)), (0, MOST), "give metres, 0 to 1,000,000")
        tap = Tap(name, segment, is_station, at, aui, self.lines.line(row))
        segment.taps.append(tap)
        return tap

    def repeater(self, plan, row, table):
        values = self.fields("repeater", row, table)
        name = values["name"]
        if name not in plan.repeaters:
            raise self.fault(row, "name", f"there is no repeater {name} on a segment{nearest(name, plan.repeaters)}: "
                             "put it on two, or leave this table out")
        if plan.repeaters[name].delay is not None:
            raise self.fault(row, "name", f"the repeater {name} has a table already: leave one out")
        plan.repeaters[name].delay = self.number(row, "delay", values["delay"], (LEAST, 100),
                                                 "give bit times, above 0 and at most 100")

    def send(self, plan, row, table):
        values = self.fields("send", row, table)
        stations = [tap.device for tap, _ in plan.stations]
        if values["station"] not in stations:
            raise self.fault(row, "station", f"there is no station {values['station']}"
                             f"{nearest(values['station'], stations)}: name one that is on a segment")
        plan.sends.append(values)


def has_finer_digits(number):
    """Whether a number has more than six digits behind the point, but for zeros at its end."""
    _, digits, exponent = number.as_tuple()
    written = "".join(map(str, digits))
    return bool(number) and exponent + len(written) - len(written.rstrip("0")) < -6


def fits(value, kind):
    """Whether a value has a type."""
    if kind == TEXT:
        return isinstance(value, str)
    if kind == ROWS:
        return isinstance(value, list) and all(isinstance(row, dict) for row in value)
    if isinstance(value, bool) or not isinstance(value, int if kind == WHOLE else (int, Decimal)):
        return False
    return kind == WHOLE or Decimal(value).is_finite()


def example(kind):
    return {NUMBER: ", as 2.5", WHOLE: ", as 1000", TEXT: ', as "a"', ROWS: ", with a head in double brackets"}[kind]


def nearest(word, known):
    """A guess at what a word was to be."""
    folded = {name.lower(): name for name in known}
    close = difflib.get_close_matches(word.lower(), folded, 1, 0.5)
    return f" (did you mean {folded[close[0]]}?)" if close else ""


def look_for_loops(plan):
    """Faults where the network isn't a tree: a repeater with one port, a loop, or segments apart."""
    group = {segment: segment for segment in plan.segments}

    def root(segment):
        while group[segment] is not segment:
            segment = group[segment]
        return segment

    for repeater in plan.repeaters.values():
        first, *others = repeater.ports
        if not others:
            raise Fault(first.line, f"the repeater {repeater.name} is on one segment alone: put it on another too")
        for port in others:
            if root(port.segment) is root(first.segment):
                raise Fault(port.line, f"the repeater {repeater.name} closes a loop: {port.segment.name} and "
                            f"{first.segment.name} are joined already without this port; take out this one or another")
            group[root(port.segment)] = root(first.segment)
    for segment in plan.segments:
        if root(segment) is not root(plan.segments[0]):
            raise Fault(segment.line, f"no path joins {segment.name} to {plan.segments[0].name}: "
                        "put a repeater between")
