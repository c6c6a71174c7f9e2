"""A second reader of layouts: the first fault by the table of docs/formats.md, and the verdict, by Python's tomllib.

It knows nothing of the program's code. `judge` answers what `check` has to say of the octets of a layout file. The two
readers of TOML differ by design in some forms of text, which `excuse` names (README.md lists them)."""
import math
import re
import tomllib

MOST_OCTETS = 1_048_576
MOST_PRODUCT = 4_000_000_000
SLOT_TIME = 1024
GAP = 192
NAMES = ["", "NotToml", "UnknownKey", "Missing", "WrongType", "BadName", "OutOfRange", "TooMany", "SameName",
         "NoSuchSegment", "NoSuchStation", "TapTaken", "Loop", "Apart", "BadFrame"]

# Each table's keys in the order in which faults are looked for: the type, whether it is required, the range of numbers.
KEYS = {
    "file": {"format": (int, True, (1, 2)), "seed": (int, True, (0, 2**63 - 1)), "until_bits": (int, True, (1, 10**9)),
             "segment": (list, True, None), "station": (list, False, None), "repeater": (list, False, None),
             "send": (list, False, None)},
    "segment": {"name": (str, True, None)},
    "station": {"name": (str, True, None), "segment": (str, True, None), "at": (int, True, (0, 2000)),
                "load": (str, False, None), "lose_bits": (int, False, (0, 48))},
    "repeater": {"name": (str, True, None), "delay": (int, True, (1, 200)), "port": (list, True, None)},
    "port": {"segment": (str, True, None), "at": (int, True, (0, 2000))},
    "send": {"station": (str, True, None), "at": (int, True, (0, 2 * 10**9)), "octets": (str, True, None)},
}
MOST_ROWS = {"segment": 256, "station": 1024, "repeater": 128, "send": 65536}
MOST_PORTS = 32


class Fault(Exception):
    """The first fault: its code and its place."""

    def __init__(self, code, place, key="-"):
        table, row, port = place
        super().__init__(f"layout fault {code} {NAMES[code]} table {table} row {row} port {port} key {key}")


FILE = ("file", 0, 0)


def has_wide_number(value):
    """Whether a whole number beyond 64 bits with a sign stands anywhere in a value."""
    pending = [value]
    while pending:
        one = pending.pop()
        if isinstance(one, dict):
            pending.extend(one.values())
        elif isinstance(one, list):
            pending.extend(one)
        elif isinstance(one, int) and not -(2**63) <= one < 2**63:
            return True
    return False


def as_older_toml(text):
    """The text in the words of TOML 1.0, where TOML 1.1 only spells a character in a new way."""
    spelled = {"\\e": "\\u001b"}
    text = text.removeprefix("\ufeff")
    return re.sub(r"\\(\\|e|x[0-9a-fA-F]{2})", lambda m: spelled.get(m[0], m[0].replace("\\x", "\\u00")), text)


def decimal_number(digits):
    """A decimal number; a ValueError where it is beyond 64 bits."""
    number = float(digits)
    if math.isinf(number) and "inf" not in digits:
        raise ValueError(digits)
    return number


def read_toml(octets):
    """The tree of a document, or None."""
    try:
        text = octets.decode("utf-8")
    except UnicodeDecodeError:
        return None
    for spelling in dict.fromkeys((text, as_older_toml(text))):
        try:
            tree = tomllib.loads(spelling, parse_float=decimal_number)
        except (ValueError, RecursionError, OverflowError):
            continue
        return None if has_wide_number(tree) else tree
    return None


def excuse(octets):
    """Why the two readers of TOML may differ on this text by design; None where they may not."""
    text = octets.decode("utf-8", "replace")
    if re.search(r"\{[^{}]*(\n|,\s*)[^{}]*\}", text) or re.search(r",\s*\}|\{[^}\n]*\n", text):
        return "an inline table over several lines or with a last comma"
    if re.search(r"\d\d:\d\d(?!:\d\d)|:60|\b0000-", text):
        return "a time without seconds, with a leap second, or in the year 0"
    if re.search(r"\[\[?[^]\n]*\]?\]?", text) and deepest(text) > 40:
        return "values nested deeply"
    if re.search(r"^[^=#\n]*\.[^=#\n]*\.[^=#\n]*=", text, re.M):
        return "a dotted key of three parts"
    return None


def deepest(text):
    """How deep brackets stand in each other at most, or how many dots a line has."""
    depth = most = 0
    for sign in re.findall(r"[][{}]", text):
        depth = max(0, depth + (1 if sign in "[{" else -1))
        most = max(most, depth)
    return max([most, *(line.count(".") for line in text.splitlines())])


def is_of(value, kind):
    if kind is list:
        return isinstance(value, list) and all(isinstance(item, dict) for item in value)
    return type(value) is kind


def rows(table, key):
    """The rows of an array of tables; none where it is another value."""
    value = table.get(key)
    return value if is_of(value, list) else []


def places(tree):
    """Each table with its kind and its place, in the order in which faults are looked for."""
    yield tree, "file", FILE
    for kind in ("segment", "station", "repeater", "send"):
        for number, row in enumerate(rows(tree, kind), 1):
            yield row, kind, (kind, number, 0)
            if kind == "repeater":
                for port, port_row in enumerate(rows(row, "port"), 1):
                    yield port_row, "port", (kind, number, port)


def find_unknown(tree):
    for table, kind, place in places(tree):
        listed = set(KEYS[kind])
        if not (type(tree.get("format")) is int and tree["format"] == 2):
            listed.discard("lose_bits")
        if set(table) - listed:
            raise Fault(2, place)


def find_missing(tree):
    for table, kind, place in places(tree):
        for key, (_, required, _) in KEYS[kind].items():
            if required and key not in table:
                raise Fault(3, place, key)


def find_wrong_types(tree):
    for table, kind, place in places(tree):
        for key, (wanted, _, _) in KEYS[kind].items():
            if key in table and not is_of(table[key], wanted):
                raise Fault(4, place, key)


def find_bad_names(tree):
    for table, kind, place in places(tree):
        if kind in ("segment", "station", "repeater") and not re.fullmatch(r"[A-Za-z0-9_-]{1,32}", table["name"]):
            raise Fault(5, place, "name")
        load = table.get("load") if kind == "station" else None
        if load is not None and (not 1 <= len(load.encode()) <= 255 or "\0" in load):
            raise Fault(5, place, "load")


def find_out_of_range(tree):
    for table, kind, place in places(tree):
        for key, (_, _, bounds) in KEYS[kind].items():
            if bounds and key in table and not bounds[0] <= table[key] <= bounds[1]:
                raise Fault(6, place, key)
            if key == "segment" and kind == "file" and not table[key]:
                raise Fault(6, place, key)
            if key == "port" and len(table[key]) < 2:
                raise Fault(6, place, key)


def find_too_many(tree):
    devices = len(tree.get("station", [])) + len(tree.get("repeater", []))
    if tree["until_bits"] * devices > MOST_PRODUCT:
        raise Fault(7, FILE, "until_bits")
    for key, most in MOST_ROWS.items():
        if len(tree.get(key, [])) > most:
            raise Fault(7, FILE, key)
    for number, row in enumerate(tree.get("repeater", []), 1):
        if len(row["port"]) > MOST_PORTS:
            raise Fault(7, ("repeater", number, 0), "port")


def find_same_names(tree):
    segments, devices = set(), set()
    for table, kind, place in places(tree):
        if kind in ("segment", "station", "repeater"):
            taken = segments if kind == "segment" else devices
            if table["name"] in taken:
                raise Fault(8, place, "name")
            taken.add(table["name"])


def find_strangers(tree):
    segments = {row["name"] for row in tree["segment"]}
    stations = {row["name"] for row in tree.get("station", [])}
    for table, kind, place in places(tree):
        if kind in ("station", "port") and table["segment"] not in segments:
            raise Fault(9, place, "segment")
    for table, kind, place in places(tree):
        if kind == "send" and table["station"] not in stations:
            raise Fault(10, place, "station")


def find_taken_taps(tree):
    taken = set()
    for table, kind, place in places(tree):
        if kind in ("station", "port"):
            if (table["segment"], table["at"]) in taken:
                raise Fault(11, place, "at")
            taken.add((table["segment"], table["at"]))


def find_loops(tree):
    """Loops, and then segments apart, by sets of what is joined."""
    group = {row["name"]: {row["name"]} for row in tree["segment"]}
    for number, row in enumerate(tree.get("repeater", []), 1):
        joined = set()
        for port, port_row in enumerate(row["port"], 1):
            if port_row["segment"] in joined:
                raise Fault(12, ("repeater", number, port), "segment")
            joined = joined | group[port_row["segment"]]
            for name in joined:
                group[name] = joined
    first = group[tree["segment"][0]["name"]]
    for number, row in enumerate(tree["segment"], 1):
        if row["name"] not in first:
            raise Fault(13, ("segment", number, 0), "name")


def find_bad_frames(tree):
    most = 1514 if tree["format"] == 1 else 1518
    for number, row in enumerate(tree.get("send", []), 1):
        if not re.fullmatch(r"([0-9a-fA-F]{2}){14,%d}" % most, row["octets"]):
            raise Fault(14, ("send", number, 0), "octets")


FINDERS = [find_unknown, find_missing, find_wrong_types, find_bad_names, find_out_of_range, find_too_many,
           find_same_names, find_strangers, find_taken_taps, find_loops, find_bad_frames]


def read(octets):
    """The tree of a layout without a fault; else the first fault is raised."""
    if len(octets) > MOST_OCTETS:
        raise Fault(7, FILE)
    tree = read_toml(octets)
    if tree is None:
        raise Fault(1, FILE)
    for find in FINDERS:
        find(tree)
    return tree


def reach(tree, start):
    """How far each station is from a station, in half bits, by walking on over cables and repeaters."""
    stations, on = tree.get("station", []), {}
    for repeater in tree.get("repeater", []):
        for port in repeater["port"]:
            on.setdefault(port["segment"], []).append((port, repeater))
    far, pending = {}, [(stations[start]["segment"], stations[start]["at"], 0, None)]
    while pending:
        segment, at, gone, came = pending.pop()
        for number, station in enumerate(stations):
            if station["segment"] == segment:
                far[number] = gone + abs(at - station["at"])
        for port, repeater in on.get(segment, []):
            if repeater is not came:
                for other in repeater["port"]:
                    if other is not port:
                        way = gone + abs(at - port["at"]) + repeater["delay"]
                        pending.append((other["segment"], other["at"], way, repeater))
    return far


def verdict(tree):
    """The line of `check` for a layout without a fault."""
    stations, worst = tree.get("station", []), None
    for first in range(len(stations)):
        far = reach(tree, first)
        for second in range(first + 1, len(stations)):
            trip = 2 * far[second] + GAP
            if worst is None or trip > worst[0]:
                worst = (trip, stations[first]["name"], stations[second]["name"])
    if worst is None:
        return "no pair"
    return f"{'within' if worst[0] < SLOT_TIME else 'over'} {worst[0]} {worst[1]} {worst[2]}"
