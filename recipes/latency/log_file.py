"""Reads a log by docs/formats.md: its rows, and whether a layout has what they name."""
import io
import re
import typing

from refusal import Refusal

MOST_OCTETS, MOST_HALF_BIT, MOST_NUMBER = 268_435_456, 2_000_000_000, 4_294_967_295
NAMES = ["", "TooLarge", "BadLine", "Order"]

NUMBER = "(0|[1-9][0-9]{0,9})"
HEAD = re.compile(f"{NUMBER} (station|repeater) ([A-Za-z0-9_-]{{1,32}}) ([a-z_]+)(.*)\n".encode())

# What follows the word of a row, with N for a number.
ENDS = {
    ("station", "sent"): " frame N start N attempt N",
    ("station", "collided"): " frame N start N attempt N hit N draw N",
    ("station", "given_up"): " frame N start N hit N",
    ("station", "cut"): " frame N start N attempt N hit (?:N|none)",
    ("station", "received"): " octets N",
    ("station", "dropped"): " (?:fragment|too_long|fcs|align|damaged) halves N",
    ("repeater", "clash"): "",
    ("repeater", "closed"): " port N",
    ("repeater", "opened"): " port N",
    ("repeater", "halted"): " port N",
}
FORMS = {(kind.encode(), word.encode()): re.compile(end.replace("N", NUMBER).encode())
         for (kind, word), end in ENDS.items()}
SENDINGS = ("sent", "collided", "given_up", "cut")
PORT_ROWS = ("closed", "opened", "halted")


class Row(typing.NamedTuple):
    """A line of a log: its half bit, the kind of its device and the name, what happened, and the numbers of that."""

    at: int
    kind: str
    name: str
    what: str
    numbers: tuple


def row_of(line):
    """The row of a line, with its line feed; None where it is none of a log."""
    head = HEAD.fullmatch(line)
    form = FORMS.get(head.group(2, 4)) if head else None
    end = form.fullmatch(head[5]) if form else None
    if not end:
        return None
    at, numbers = int(head[1]), tuple(int(number) for number in end.groups() if number is not None)
    row = Row(at, head[2].decode(), head[3].decode(), head[4].decode(), numbers)
    start = numbers[1] if row.what in SENDINGS else 0
    in_range = start <= at <= MOST_HALF_BIT and all(number <= MOST_NUMBER for number in numbers)
    return row if in_range else None


def rows(octets):
    """The rows of a log, in their order."""
    def fail(code, line):
        raise Refusal(8, f"log fault {code} {NAMES[code]} line {line}")

    if len(octets) > MOST_OCTETS:
        fail(1, 0)
    before = 0
    for number, line in enumerate(io.BytesIO(octets), 1):
        row = row_of(line)
        if row is None:
            fail(2, number)
        if row.at < before:
            fail(3, number)
        before = row.at
        yield row


def has(layout_ports, queues, row):
    """Whether the layout has what a row names: by repeater how many ports it has, and by station its frames."""
    if row.kind == "station":
        frames = queues.get(row.name)
        return frames is not None and (row.what not in SENDINGS or 1 <= row.numbers[0] <= len(frames))
    ports = layout_ports.get(row.name)
    return ports is not None and (row.what not in PORT_ROWS or 1 <= row.numbers[0] <= ports)


def read(octets, layout, queues):
    """The rows of a log in which each names what the layout has. A fault of the log comes before any stranger."""
    layout_ports = {repeater.name: len(repeater.ports) for repeater in layout.repeaters}
    stranger = None
    for number, row in enumerate(rows(octets), 1):
        if stranger is None and not has(layout_ports, queues, row):
            stranger = number
        if stranger is None:
            yield row
    if stranger is not None:
        raise Refusal(11, f"frames fault line {stranger}")
