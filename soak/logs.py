"""A second reader of logs, by docs/formats.md: faults, figures, counters and sums."""
import re
from dataclasses import dataclass, field

MOST_OCTETS = 268_435_456
MOST_HALF_BIT = 2_000_000_000
MOST_NUMBER = 4_294_967_295
SLOT_TIME = 1024
NAMES = ["", "TooLarge", "BadLine", "Order"]
NUMBER = rb"(?:0|[1-9][0-9]{0,9})"
LINE = re.compile(
    rb"(?P<t>N) (?:station (?P<station>[A-Za-z0-9_-]{1,32}) (?:"
    rb"sent frame (?P<sent>N) start (?P<start_s>N) attempt (?P<attempt_s>N)"
    rb"|collided frame (?P<collided>N) start (?P<start_c>N) attempt (?P<attempt_c>N) hit (?P<hit_c>N) draw (?P<draw>N)"
    rb"|given_up frame (?P<given_up>N) start (?P<start_g>N) hit (?P<hit_g>N)"
    rb"|cut frame (?P<cut>N) start (?P<start_x>N) attempt (?P<attempt_x>N) hit (?P<hit_x>N|none)"
    rb"|received octets (?P<received>N)"
    rb"|dropped (?P<why>fragment|too_long|fcs|align|damaged) halves (?P<halves>N))"
    rb"|repeater (?P<repeater>[A-Za-z0-9_-]{1,32}) (?:(?P<clash>clash)"
    rb"|(?P<guard>closed|opened|halted) port (?P<port>N)))"
    .replace(b"N)", NUMBER + b")").replace(b"N|", NUMBER + b"|"))
STATION_WORDS = ["sent", "collided", "given_up", "cut", "received"]


@dataclass
class Row:
    """A line of a log: what happened, with its numbers by name."""

    t: int
    repeater: bool
    name: str
    what: str
    numbers: dict = field(default_factory=dict)


class Fault(Exception):
    """The first fault of a log: its code and its line, from 1, or 0."""

    def __init__(self, code, line):
        super().__init__(f"log fault {code} {NAMES[code]} line {line}")
        self.code, self.line = code, line


def row_of(line):
    """The row of a line without its line feed, or None."""
    match = LINE.fullmatch(line)
    if not match:
        return None
    found = {key: value for key, value in match.groupdict().items() if value is not None}
    numbers = {}
    for key, value in found.items():
        if key not in ("station", "repeater", "why", "clash", "guard") and value != b"none":
            numbers[key.split("_")[0] if key[-2:-1] == "_" else key] = int(value)
    t, start = numbers.pop("t"), numbers.get("start", 0)
    if t > MOST_HALF_BIT or start > t or any(number > MOST_NUMBER for number in numbers.values()):
        return None
    repeater = "repeater" in found
    name = found["repeater" if repeater else "station"].decode()
    if repeater:
        what = "clash" if "clash" in found else found["guard"].decode()
    else:
        what = next((word for word in STATION_WORDS if word in found), "dropped")
    if "why" in found:
        numbers["why"] = found["why"].decode()
    if what in numbers:
        numbers["octets" if what == "received" else "frame"] = numbers.pop(what)
    return Row(t, repeater, name, what, numbers)


def read(octets):
    """The rows of a log; else the first fault is raised."""
    if len(octets) > MOST_OCTETS:
        raise Fault(1, 0)
    rows, before = [], 0
    lines = octets.split(b"\n")
    for number, line in enumerate(lines, 1):
        if number == len(lines):
            if line:
                raise Fault(2, number)
            break
        row = row_of(line)
        if row is None:
            raise Fault(2, number)
        if row.t < before:
            raise Fault(3, number)
        before = row.t
        rows.append(row)
    return rows


def sending(row):
    return row.t - row.numbers["start"] if "start" in row.numbers else 0


def figures(rows):
    """What `meter` has to say of the rows of a log."""
    stations, repeaters, streak, last = {}, {}, 0, None
    for row in rows:
        if row.repeater:
            repeaters.setdefault(row.name, []).append(row.what)
            continue
        tally = stations.setdefault(row.name, {"whats": [], "half_bits": 0, "longest": 0})
        tally["whats"].append(row.what)
        tally["half_bits"] += sending(row)
        if row.what == "sent":
            streak = streak + 1 if last == row.name else 1
            last = row.name
            tally["longest"] = max(tally["longest"], streak)
    lines = [f"rows {len(rows)} sending {sum(sending(row) for row in rows)}"]
    for name, tally in sorted(stations.items(), key=lambda item: item[0].encode()):
        count = tally["whats"].count
        met = count("collided") + count("given_up")
        ended = met + count("sent")
        words = " ".join(f"{word} {count(word)}" for word in [*STATION_WORDS, "dropped"])
        lines.append(f"station {name} {words} half_bits {tally['half_bits']} "
                     f"share {1000 * met // ended if ended else 0} longest {tally['longest']}")
    for name, whats in sorted(repeaters.items(), key=lambda item: item[0].encode()):
        words = " ".join(f"{word} {whats.count(word)}" for word in ("clash", "closed", "opened", "halted"))
        lines.append(f"repeater {name} {words}")
    return "".join(line + "\n" for line in lines)


def count(rows, queue):
    """The counts of a station's rows by the words of the counters."""
    def number(what):
        return sum(row.what == what for row in rows)

    collided = [row for row in rows if row.what in ("collided", "given_up")]
    dropped = [row.numbers["why"] for row in rows if row.what == "dropped"]
    counts = {"queued": len(queue.frames), "short": queue.skipped["short"], "long": queue.skipped["long"],
              "snapped": queue.skipped["snapped"], "sent": number("sent"), "collided": len(collided),
              "late": sum(row.numbers["hit"] >= SLOT_TIME for row in collided), "given_up": number("given_up"),
              "cut": number("cut"), "left": len(queue.frames) - number("sent") - number("given_up"),
              "received": number("received")}
    for why in ("fragment", "too_long", "fcs", "align", "damaged"):
        counts[why] = dropped.count(why)
    return counts


def counters_and_sums(tree, queues, rows):
    """The text of the counters, and the last line of the summary."""
    sums, lines = dict.fromkeys(
        ["sent", "collided", "late", "given_up", "cut", "left", "received", "dropped",
         "clash", "closed", "opened"], 0), []
    by_name = {}
    for row in rows:
        by_name.setdefault(row.name, []).append(row)
    for station, queue in zip(tree.get("station", []), queues):
        counts = count(by_name.get(station["name"], []), queue)
        counts_of_drops = sum(counts[why] for why in ("fragment", "too_long", "fcs", "align", "damaged"))
        for word in sums:
            sums[word] += counts_of_drops if word == "dropped" else counts.get(word, 0)
        lines.append(f"station {station['name']} " + " ".join(f"{word} {n}" for word, n in counts.items()))
    for repeater in tree.get("repeater", []):
        whats = [row.what for row in by_name.get(repeater["name"], [])]
        counts = {word: whats.count(word) for word in ("clash", "closed", "opened", "halted")}
        for word in ("clash", "closed", "opened"):
            sums[word] += counts[word]
        lines.append(f"repeater {repeater['name']} " + " ".join(f"{word} {n}" for word, n in counts.items()))
    return "".join(line + "\n" for line in lines), " ".join(f"{word} {n}" for word, n in sums.items())
