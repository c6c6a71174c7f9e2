"""Reads loads, captures in the classic form of pcap, and makes of them and of a layout's sends what each station has to
send, by docs/formats.md."""
import struct
import typing

from refusal import Refusal, read_file

MOST_OCTETS, MOST_OF_ALL, MOST_OF_RECORD = 67_108_864, 268_435_456, 262_144
NAMES = ["", "Short", "Magic", "Version", "LinkType", "Length", "CutRecord", "TooLarge"]

# The first four octets of a capture: the order of its numbers, and how many nanoseconds a fraction counts.
MAGICS = {b"\xd4\xc3\xb2\xa1": ("<", 1000), b"\xa1\xb2\xc3\xd4": (">", 1000),
          b"\x4d\x3c\xb2\xa1": ("<", 1), b"\xa1\xb2\x3c\x4d": (">", 1)}
HEADER, RECORD_HEADER = 24, 16
SECOND, HALF_BIT = 1_000_000_000, 50

# The shortest frame, with its pad, and the octets of a check sequence.
SHORTEST, PADDED, CHECK_SEQUENCE = 14, 60, 4


class Record(typing.NamedTuple):
    """A record's time in nanoseconds, how many octets it has, and how many its frame had."""

    nanoseconds: int
    octets: int
    original: int


class Frame(typing.NamedTuple):
    """A frame that a station has to send: from which half bit on, and its octets with pad and check sequence."""

    ready: int
    octets: int


def records(octets, before, station):
    """The records of a load, where the loads before it have so many octets."""
    def fail_unless(holds, code, record=0):
        if not holds:
            raise Refusal(3, f"capture fault {code} {NAMES[code]} station {station} record {record}")

    fail_unless(len(octets) <= MOST_OCTETS and before + len(octets) <= MOST_OF_ALL, 7)
    fail_unless(len(octets) >= HEADER, 1)
    fail_unless(octets[:4] in MAGICS, 2)
    order, unit = MAGICS[octets[:4]]
    fail_unless(struct.unpack_from(order + "HH", octets, 4) == (2, 4), 3)
    fail_unless(struct.unpack_from(order + "I", octets, 20) == (1,), 4)
    found, place, header = [], HEADER, struct.Struct(order + "IIII")
    while place < len(octets):
        number = len(found) + 1
        fail_unless(len(octets) - place >= RECORD_HEADER, 6, number)
        seconds, fraction, captured, original = header.unpack_from(octets, place)
        fail_unless(captured <= MOST_OF_RECORD, 5, number)
        place += RECORD_HEADER + captured
        fail_unless(place <= len(octets), 6, number)
        found.append(Record(seconds * SECOND + fraction * unit, captured, original))
    return found


def is_sent(record, longest):
    """Whether a record isn't skipped: its frame was captured whole, and is neither too short nor too long."""
    return record.octets >= record.original and SHORTEST <= record.octets <= longest


def frame(ready, octets):
    return Frame(ready, max(octets, PADDED) + CHECK_SEQUENCE)


def raised(frames):
    """The frames, none of them ready before the one before it."""
    ready = 0
    for one in frames:
        ready = max(ready, one.ready)
        yield one._replace(ready=ready)


def read_loads(layout):
    """The records of each station's load; none of a station without one."""
    found, before = {}, 0
    for station in layout.stations:
        found[station.name] = []
        if station.load is not None:
            octets = read_file(station.load, MOST_OCTETS)
            found[station.name] = records(octets, before, station.name)
            before += len(octets)
    return found


def queues(layout):
    """By station the frames that it has to send, in their order: its load's records, and then its sends."""
    loads = read_loads(layout)
    least = min((record.nanoseconds for found in loads.values() for record in found), default=0)
    frames = {name: [frame((record.nanoseconds - least) // HALF_BIT, record.octets) for record in found
                     if is_sent(record, layout.longest)] for name, found in loads.items()}
    for send in layout.sends:
        frames[send.station].append(frame(send.at, send.octets))
    return {name: list(raised(found)) for name, found in frames.items()}
