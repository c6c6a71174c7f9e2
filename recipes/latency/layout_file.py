"""Reads a layout file by the tables of docs/formats.md. One that breaks a rule is refused with status 2 and a sentence
about it; `netsim check` prints its code and its place. Its TOML is that of Python, 1.0."""
import re
import tomllib
import typing

from refusal import Refusal

MOST_OCTETS = 1_048_576
MOST_ROWS = {"segment": 256, "station": 1024, "repeater": 128, "send": 65_536}
MOST_PORTS = 32
MOST_DEVICE_BITS = 4_000_000_000

# The longest frame without its check sequence, by the format of the layout.
LONGEST = {1: 1514, 2: 1518}

NAME = re.compile("[A-Za-z0-9_-]{1,32}")


class Tap(typing.NamedTuple):
    """A place on a segment, in half bits from its end."""

    segment: str
    at: int


class Station(typing.NamedTuple):
    name: str
    tap: Tap
    load: typing.Optional[str]


class Repeater(typing.NamedTuple):
    name: str
    delay: int
    ports: tuple


class Send(typing.NamedTuple):
    """A frame that a station is asked to send: from which half bit on, and its octets without the check sequence."""

    station: str
    at: int
    octets: int


class Layout(typing.NamedTuple):
    """How many half bits the run has, how many octets a frame may have at most, the devices and what is sent."""

    half_bits: int
    longest: int
    segments: tuple
    stations: tuple
    repeaters: tuple
    sends: tuple


class Key(typing.NamedTuple):
    """What a key of a table may have: the type, whether it must be there, and the range of a number."""

    kind: type
    is_required: bool = True
    least: int = 0
    most: int = 0


PLACE = Key(int, most=2000)
NO_ROWS = Key(list, is_required=False)
KEYS = {
    "file": {"format": Key(int, least=1, most=2), "seed": Key(int, most=2**63 - 1),
             "until_bits": Key(int, least=1, most=1_000_000_000), "segment": Key(list), "station": NO_ROWS,
             "repeater": NO_ROWS, "send": NO_ROWS},
    "segment": {"name": Key(str)},
    "station": {"name": Key(str), "segment": Key(str), "at": PLACE, "load": Key(str, is_required=False),
                "lose_bits": Key(int, is_required=False, most=48)},
    "repeater": {"name": Key(str), "delay": Key(int, least=1, most=200), "port": Key(list)},
    "port": {"segment": Key(str), "at": PLACE},
    "send": {"station": Key(str), "at": Key(int, most=2_000_000_000), "octets": Key(str)},
}


def fail_unless(holds, sentence):
    if not holds:
        raise ValueError(sentence)


def judge_value(key, value, place):
    fail_unless(type(value) is key.kind, f"{place} has another type")
    if key.kind is int:
        fail_unless(key.least <= value <= key.most, f"{place} is out of its range")
    if key.kind is list:
        fail_unless(all(type(row) is dict for row in value), f"{place} isn't an array of tables")


def judge_table(table, kind, place):
    """The keys of a table, and then the tables in it."""
    for key in table:
        fail_unless(key in KEYS[kind], f"{place} has an unknown key {key}")
    for key, rule in KEYS[kind].items():
        fail_unless(key in table or not rule.is_required, f"{place} lacks {key}")
        if key in table:
            judge_value(rule, table[key], f"{key} of {place}")
            for number, row in enumerate(table[key] if rule.kind is list else (), 1):
                judge_table(row, key, f"{key} row {number}" + (f" of {place}" if key == "port" else ""))


def judge_names(tree):
    """Names have their form, are different, and what is named is there."""
    segments = [row["name"] for row in tree["segment"]]
    stations = [row["name"] for row in tree["station"]]
    devices = stations + [row["name"] for row in tree["repeater"]]
    for name in segments + devices:
        fail_unless(NAME.fullmatch(name), f"{name!r} is no name")
    fail_unless(len(set(segments)) == len(segments), "two segments have one name")
    fail_unless(len(set(devices)) == len(devices), "two devices have one name")
    for row in [*tree["station"], *(port for repeater in tree["repeater"] for port in repeater["port"])]:
        fail_unless(row["segment"] in segments, f"there is no segment {row['segment']!r}")
    known = set(stations)
    for row in tree["send"]:
        fail_unless(row["station"] in known, f"there is no station {row['station']!r}")


def judge_counts(tree):
    for key, most in MOST_ROWS.items():
        fail_unless(len(tree[key]) <= most, f"there are more than {most} rows {key}")
    fail_unless(tree["segment"], "there is no segment")
    for row in tree["repeater"]:
        fail_unless(2 <= len(row["port"]) <= MOST_PORTS, f"a repeater has 2 to {MOST_PORTS} ports")
    devices = len(tree["station"]) + len(tree["repeater"])
    fail_unless(tree["until_bits"] * devices <= MOST_DEVICE_BITS, "until_bits times the devices is too much")


def judge_texts(tree):
    """Loads and frames that are spelled in the file, and keys of format 2."""
    for row in tree["station"]:
        load = row.get("load", "-")
        fail_unless(1 <= len(load.encode()) <= 255 and "\0" not in load, "a load's name has 1 to 255 octets, none zero")
        fail_unless(tree["format"] == 2 or "lose_bits" not in row, "lose_bits is for format 2")
    digits = re.compile("([0-9a-fA-F]{2}){14,%d}" % LONGEST[tree["format"]])
    for number, row in enumerate(tree["send"], 1):
        fail_unless(digits.fullmatch(row["octets"]), f"the octets of send row {number} break their rule")


def judge_tree(layout):
    """No two taps share a place, and segments and repeaters are a tree: one way leads from each to each."""
    joined = [(repeater.name, port.segment) for repeater in layout.repeaters for port in repeater.ports]
    taps = [station.tap for station in layout.stations]
    taps += [port for repeater in layout.repeaters for port in repeater.ports]
    fail_unless(len(set(taps)) == len(taps), "two taps stand at one place")
    fail_unless(len(joined) == len(layout.segments) + len(layout.repeaters) - 1, "there is a loop, or a part is apart")
    beside = {}
    for repeater, segment in joined:
        beside.setdefault(("repeater", repeater), []).append(("segment", segment))
        beside.setdefault(("segment", segment), []).append(("repeater", repeater))
    todo = [("segment", layout.segments[0])]
    found = set(todo)
    while todo:
        new = set(beside.get(todo.pop(), ())) - found
        found |= new
        todo += new
    fail_unless(len(found) == len(layout.segments) + len(layout.repeaters), "there is a loop, or a part is apart")


def layout_of(tree):
    """The layout that the values of a file spell, judged."""
    judge_table(tree, "file", "the file")
    tree = {"station": [], "repeater": [], "send": [], **tree}
    for judge in (judge_counts, judge_names, judge_texts):
        judge(tree)
    stations = (Station(row["name"], Tap(row["segment"], row["at"]), row.get("load")) for row in tree["station"])
    repeaters = (Repeater(row["name"], row["delay"], tuple(Tap(port["segment"], port["at"]) for port in row["port"]))
                 for row in tree["repeater"])
    sends = (Send(row["station"], row["at"], len(row["octets"]) // 2) for row in tree["send"])
    layout = Layout(2 * tree["until_bits"], LONGEST[tree["format"]], tuple(row["name"] for row in tree["segment"]),
                    tuple(stations), tuple(repeaters), tuple(sends))
    judge_tree(layout)
    return layout


def read(name, octets):
    """The layout of a file's octets."""
    try:
        fail_unless(len(octets) <= MOST_OCTETS, f"it has more than {MOST_OCTETS} octets")
        return layout_of(tomllib.loads(octets.decode("utf-8-sig")))
    except (ValueError, RecursionError) as error:
        sentence = f"{name}: {error}; netsim check prints the first fault and its place"
        raise Refusal(2, "layout fault", sentence) from None
