"""What the words of the command ask for, or a sentence about what is wrong with them."""
import fractions
import re
import typing

Fraction = fractions.Fraction

# Limits of netsim, and of the frames of the standard, with their check sequence.
STATIONS, SEED, BITS, DEVICE_BITS = 1024, 2**63 - 1, 1_000_000_000, 4_000_000_000
PLACE, PORTS, REPEATERS_DELAY = 2000, 32, 200
SHORTEST, LONGEST = 64, 1518

BITS_A_SECOND = 10_000_000

# What is taken where a word isn't given.
DEFAULTS = {"stations": None, "share": None, "octets": "64:7,576:4,1518:1", "seconds": "0.5", "seed": "1",
            "arrivals": "poisson", "burst": None, "weights": None, "topology": "segment", "apart": "4", "delay": None}
MEAN_BURST, DELAY = "8", "46"
ARRIVALS = ("poisson", "regular", "bursts")


class Fault(Exception):
    """What is wrong with the words, in a sentence."""


class Asked(typing.NamedTuple):
    """What is asked for: the share of the channel, a weight of it for each station, pairs of octets and weight for the
    lengths, how many bits are run, and in half bits how far stations are apart and the delay of the repeater."""

    words: str
    stations: int
    share: Fraction
    weights: tuple
    lengths: tuple
    bits: int
    seed: int
    arrivals: str
    burst: Fraction
    segments: int
    apart: int
    delay: int


def whole(word, text, least, most):
    if not re.fullmatch("[0-9]{1,19}", text) or not least <= int(text) <= most:
        raise Fault(f"--{word} takes a whole number of {least} to {most}, not '{text}'")
    return int(text)


def decimal(word, text, least, most):
    """A decimal number, exactly."""
    if not re.fullmatch(r"[0-9]{1,9}(\.[0-9]{1,7})?", text) or not Fraction(least) <= Fraction(text) <= most:
        raise Fault(f"--{word} takes a number of {least} to {most}, with at most seven digits behind the point, not "
                    f"'{text}'")
    return Fraction(text)


def lengths(text):
    """64,1518 has equal weights, and 64:7,576:4 the weights behind the colons."""
    parts = [part.split(":") for part in text.split(",")]
    if len({len(part) for part in parts}) != 1 or len(parts[0]) > 2:
        raise Fault(f"--octets takes lengths with commas between them, all with a colon and a weight or none, not "
                    f"'{text}'")
    return tuple((whole("octets", part[0], SHORTEST, LONGEST),
                  decimal("octets with weights", part[1] if part[1:] else "1", "0.001", 1_000_000)) for part in parts)


def weights(text, stations):
    """A weight for each station."""
    if text is None:
        return (Fraction(1),) * stations
    found = tuple(decimal("weights", part, 0, 1_000_000) for part in text.split(","))
    if len(found) != stations or not any(found):
        raise Fault(f"--weights takes {stations} numbers for as many stations, not all of them 0, not '{text}'")
    return found


def bits(text):
    return int(BITS_A_SECOND * decimal("seconds", text, "0.0000001", BITS // BITS_A_SECOND))


def arrivals(text, burst):
    if text not in ARRIVALS:
        raise Fault(f"--arrivals takes one of {', '.join(ARRIVALS)}, not '{text}'")
    if burst is not None and text != "bursts":
        raise Fault("--burst takes how many frames a burst has, and goes with --arrivals bursts alone")
    return text, decimal("burst", burst or MEAN_BURST, 1, 10_000)


def topology(text, delay):
    """How many segments there are, and the delay of the repeater between them."""
    if text == "segment":
        if delay is not None:
            raise Fault("--delay is that of the repeater, and goes with --topology repeater:N alone")
        return 1, 0
    kind, _, number = text.partition(":")
    if kind != "repeater":
        raise Fault(f"--topology takes segment, or repeater:N for N segments around a repeater, not '{text}'")
    return whole("topology repeater:N", number, 2, PORTS), whole("delay", delay or DELAY, 1, REPEATERS_DELAY)


def read(given):
    """What is asked for by words and their texts; what isn't given is None."""
    given = {word: default if given.get(word) is None else given[word] for word, default in DEFAULTS.items()}
    for word in ("stations", "share"):
        if given[word] is None:
            raise Fault(f"--{word} is missing")
    stations = whole("stations", given["stations"], 1, STATIONS)
    segments, delay = topology(given["topology"], given["delay"])
    asked = Asked(" ".join(f"--{word} {text}" for word, text in given.items() if text is not None), stations,
                  decimal("share", given["share"], "0.000001", 100), weights(given["weights"], stations),
                  lengths(given["octets"]), bits(given["seconds"]), whole("seed", given["seed"], 0, SEED),
                  *arrivals(given["arrivals"], given["burst"]), segments, whole("apart", given["apart"], 1, PLACE),
                  delay)
    look(asked)
    return asked


def look(asked):
    """What must hold of several words together."""
    devices = asked.stations + (asked.segments > 1)
    if asked.bits * devices > DEVICE_BITS:
        raise Fault(f"--seconds takes at most {DEVICE_BITS // devices / BITS_A_SECOND:.7f} with {devices} devices")
    last = place(asked, asked.stations)
    if last > PLACE:
        raise Fault(f"--apart puts the last station at {last} half bits, and a place is at most {PLACE}")


def place(asked, number):
    """Where a station is on its segment. Stations are dealt out over segments in turn, and a repeater has place 0."""
    return ((number - 1) // asked.segments + (asked.segments > 1)) * asked.apart
