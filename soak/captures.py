"""A second reader of captures, by docs/formats.md: the first fault of a load, and the records of a capture."""
import struct
from dataclasses import dataclass

NAMES = ["", "Short", "Magic", "Version", "LinkType", "Length", "CutRecord", "TooLarge"]
MOST_LOAD = 67_108_864
MOST_LOADS = 268_435_456
MOST_RECORD = 262_144
HEADER = 24

# The first four octets, with the order of octets and how many nanoseconds a fraction of a second counts.
MAGICS = {
    b"\xd4\xc3\xb2\xa1": ("<", 1000), b"\xa1\xb2\xc3\xd4": (">", 1000),
    b"\x4d\x3c\xb2\xa1": ("<", 1), b"\xa1\xb2\x3c\x4d": (">", 1),
}


class Fault(Exception):
    """The first fault of a capture: its code, and the record from 1, or 0."""

    def __init__(self, code, record=0):
        super().__init__(code, record)
        self.code, self.record = code, record

    def line(self, station):
        return f"capture fault {self.code} {NAMES[self.code]} station {station} record {self.record}"


@dataclass
class Record:
    nanos: int
    original: int
    octets: bytes


def read(octets, before=0):
    """The records of a load, of which those before it have so many octets; else the first fault is raised."""
    if len(octets) > MOST_LOAD or before + len(octets) > MOST_LOADS:
        raise Fault(7)
    if len(octets) < HEADER:
        raise Fault(1)
    if octets[:4] not in MAGICS:
        raise Fault(2)
    order, scale = MAGICS[octets[:4]]
    if struct.unpack_from(order + "HH", octets, 4) != (2, 4):
        raise Fault(3)
    if struct.unpack_from(order + "I", octets, 20) != (1,):
        raise Fault(4)
    return list(walk(octets, order, scale))


def walk(octets, order, scale):
    at, number = HEADER, 1
    while at < len(octets):
        if len(octets) - at < 16:
            raise Fault(6, number)
        seconds, part, length, original = struct.unpack_from(order + "IIII", octets, at)
        if length > MOST_RECORD:
            raise Fault(5, number)
        if len(octets) - at - 16 < length:
            raise Fault(6, number)
        yield Record(seconds * 10**9 + part * scale, original, octets[at + 16 : at + 16 + length])
        at, number = at + 16 + length, number + 1


def header(order="<", scale=1, link=1, version=(2, 4)):
    magic = next(m for m, form in MAGICS.items() if form == (order, scale))
    return magic + struct.pack(order + "HHIIII", *version, 0, 0, 262_144, link)


def record(octets, nanos, order="<", scale=1, original=None):
    length = len(octets) if original is None else original
    return struct.pack(order + "IIII", nanos // 10**9 % 2**32, nanos % 10**9 // scale, len(octets), length) + octets


def skip_reason(one, most):
    """As what a record is skipped, or None."""
    if len(one.octets) < one.original:
        return "snapped"
    if len(one.octets) < 14:
        return "short"
    return "long" if len(one.octets) > most else None


@dataclass
class Queue:
    """What a station has to send: (ready, octets) each, and how many records were skipped."""

    frames: list
    skipped: dict


def queues(tree, loads):
    """The queue of each station of a sound layout. `loads` has the records of each station, or none."""
    most = 1514 if tree["format"] == 1 else 1518
    least = min((one.nanos for records in loads for one in records), default=0)
    answer, by_name = [], {}
    for station, records in zip(tree.get("station", []), loads):
        queue = Queue([], {"short": 0, "long": 0, "snapped": 0})
        for one in records:
            reason = skip_reason(one, most)
            if reason:
                queue.skipped[reason] += 1
            else:
                queue.frames.append([(one.nanos - least) // 50, one.octets])
        answer.append(queue)
        by_name[station["name"]] = queue
    for send in tree.get("send", []):
        by_name[send["station"]].frames.append([send["at"], bytes.fromhex(send["octets"])])
    for queue in answer:
        ready = 0
        for frame in queue.frames:
            frame[0] = ready = max(ready, frame[0])
    return answer


def read_loads(tree, read_file):
    """The records of each station's load; the first fault is answered as the line that tells it instead."""
    answer, total = [], 0
    for station in tree.get("station", []):
        name = station.get("load")
        if name is None:
            answer.append([])
            continue
        octets = read_file(name)
        if octets is None:
            return f"read fault {name}"
        try:
            answer.append(read(octets, total))
        except Fault as fault:
            return fault.line(station["name"])
        total += len(octets)
    return answer
