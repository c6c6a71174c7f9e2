"""Changes of octets: by octets, by tokens of the format, by lines, and spliced from two."""
import re

WORDS = {
    "layout": [b"format", b"seed", b"until_bits", b"[[segment]]", b"[[station]]", b"[[repeater]]", b"[[repeater.port]]",
               b"[[send]]", b"name", b"segment", b"at", b"load", b"lose_bits", b"delay", b"port", b"station", b"octets",
               b"[segment]", b"=", b"{}", b"[]", b"true", b"1979-05-27", b"07:32:00", b"nan", b"-inf", b"1e9", b"0x1f",
               b"1_000", b"'x'", b'"""', b"'''", b"\\u0041", b"\\e", b"\\x41", b"\xef\xbb\xbf", b"\xff", b"\x00", b"\r",
               b"#", b".", b",", b"[" * 50, b"{a=" * 30, b"999999999999999999999"],
    "log": [b"station", b"repeater", b"sent", b"collided", b"given_up", b"cut", b"received", b"dropped", b"clash",
            b"closed", b"opened", b"halted", b"frame", b"start", b"attempt", b"hit", b"none", b"draw", b"octets",
            b"halves", b"fragment", b"too_long", b"fcs", b"align", b"damaged", b"port", b"\r", b"\x00", b" "],
    "state": [b"state", b"station", b"guard", b"row", b"octets", b"end", b"phase", b"rest", b"waiting", b"backoff 5",
              b"defer", b"watch", b"busy yes", b"gap 1 no", b"attempt", b"place", b"drawn", b"yes", b"no", b"closed",
              b"mend", b"struck", b"in_row", b"clash_run", b"clean_run", b"sent", b"received", b"cut", b"ff", b"\n"],
    "load": [b"\xd4\xc3\xb2\xa1", b"\xa1\xb2\xc3\xd4", b"\x4d\x3c\xb2\xa1", b"\xa1\xb2\x3c\x4d", b"\x0a\x0d\x0d\x0a",
             b"\x02\x00\x04\x00", b"\x00\x02\x00\x04", bytes(4), b"\xff" * 4, b"\x01\x00\x00\x00", b"\x00\x00\x00\x01",
             b"\x00\x00\x04\x00", b"\x01\x00\x04\x00", b"\x00\x04\x00\x00", b"\x00\x04\x00\x01", b"\x0e\x00\x00\x00"],
}
NUMBERS = [b"%d" % number for number in (
    0, 1, 2, -1, 16, 17, 31, 32, 48, 49, 64, 191, 192, 193, 200, 201, 1023, 1024, 1025, 1514, 1518, 1519, 1522, 1523,
    2000, 2001, 2049, 2050, 65536, 10**9, 10**9 + 1, 2 * 10**9, 2 * 10**9 + 1, 21 * 10**8, 21 * 10**8 + 1, 2**32 - 1,
    2**32, 2**63 - 1, 2**63, 2**64)] + [b"01"]
TOKEN = re.compile(rb"[A-Za-z0-9_]+|[ \t]+|\n|[^A-Za-z0-9_]", re.S)


def tokens_of(octets, kind):
    if kind == "load":
        return [octets[i : i + 4] for i in range(0, len(octets), 4)]
    return TOKEN.findall(octets)


def by_octets(dice, octets, kind, other):
    data = bytearray(octets)
    for _ in range(dice.choice([1, 1, 2, 4, 8])):
        at, change = dice.randrange(len(data) + 1), dice.randrange(6)
        if change == 0 and at < len(data):
            data[at] ^= 1 << dice.randrange(8)
        elif change == 1 and at < len(data):
            data[at] = dice.choice([0, 10, 13, 32, 34, 35, 48, 57, 91, 127, 128, 255, dice.randrange(256)])
        elif change == 2:
            data[at : at + dice.choice([1, 1, 4, 30])] = b""
        elif change == 3:
            data[at:at] = bytes([dice.randrange(256)]) * dice.choice([1, 1, 2, 5, 40])
        elif change == 4:
            data[at:at] = data[dice.randrange(len(data) + 1) :][: dice.choice([1, 8, 60])]
        elif dice.random() < 0.3:
            del data[at:]
    return bytes(data)


def by_tokens(dice, octets, kind, other):
    parts = tokens_of(octets, kind)
    for _ in range(dice.choice([1, 1, 2, 3, 6])):
        if not parts:
            return octets
        at, change = dice.randrange(len(parts)), dice.randrange(6)
        if change == 0:
            parts[at] = dice.choice(parts)
        elif change == 1:
            del parts[at]
        elif change == 2:
            parts.insert(at, dice.choice(parts))
        elif change == 3:
            parts[at] = dice.choice(WORDS[kind])
        else:
            digits = [n for n, part in enumerate(parts) if part.isdigit()]
            if kind != "load" and digits:
                parts[dice.choice(digits)] = dice.choice(NUMBERS + [b"%d" % dice.randrange(3000)])
            else:
                parts[at] = (dice.choice([0, 1, 13, 14, 1514, 1515, 262144, 262145, 2**32 - 1])
                             .to_bytes(4, dice.choice(["little", "big"])))
    return b"".join(parts)


def by_lines(dice, octets, kind, other):
    lines = octets.splitlines(keepends=True) if kind != "load" else tokens_of(octets, kind)
    for _ in range(dice.choice([1, 1, 2, 4])):
        if not lines:
            return octets
        at, change = dice.randrange(len(lines)), dice.randrange(5)
        if change == 0:
            del lines[at : at + dice.choice([1, 1, 3])]
        elif change == 1:
            lines.insert(at, dice.choice(lines))
        elif change == 2:
            lines.insert(dice.randrange(len(lines)), lines.pop(at))
        elif change == 3:
            lines[at] = lines[at][: dice.randrange(len(lines[at]) + 1)]
        else:
            lines[at:at] = [dice.choice(lines)] * dice.choice([2, 40])
    return b"".join(lines)


def spliced(dice, octets, kind, other):
    first, second = tokens_of(octets, kind), tokens_of(other, kind)
    cut, begin = dice.randrange(len(first) + 1), dice.randrange(len(second) + 1)
    return b"".join(first[:cut] + second[begin:])


WAYS = [by_octets, by_tokens, by_tokens, by_lines, spliced]


def mutate(dice, octets, kind, other=b""):
    """The octets after one or two changes."""
    for _ in range(dice.choice([1, 1, 1, 2])):
        octets = dice.choice(WAYS)(dice, octets, kind, other)
    return octets
