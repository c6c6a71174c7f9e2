"""The numbers of IEEE 802.3 that a plan is held against: the limits of its media (clauses 8, 9, 10 and 14 to 18), the
rule of repeaters (13.3), and the terms of system model 2 (13.4, tables 13-2 and 13-3).

All numbers are exact decimals. A delay of clause 13 is in bit times, there and back, so the same number is the delay in
half bits one way."""
import decimal
import typing

Decimal = decimal.Decimal

# Sums and products of a plan's numbers need fewer digits than this; where one did not, it would be refused and not
# rounded.
decimal.setcontext(decimal.Context(prec=60, traps=[decimal.Inexact, decimal.InvalidOperation, decimal.DivisionByZero]))


class Medium(typing.NamedTuple):
    """A kind of cable: its limits, the bases of its round trip delay as a left end, a middle and a right end, its delay
    a metre, and its variability as the transmitting end and in the middle."""

    name: str
    is_link: bool
    most_metres: Decimal
    most_taps: int
    least_gap: Decimal
    left: Decimal
    middle: Decimal
    right: Decimal
    per_metre: Decimal
    transmitting: Decimal
    passing: Decimal


def medium(name, is_link, limits, bases, per_metre, variability):
    return Medium(name, is_link, *(Decimal(word) for word in f"{limits} {bases} {per_metre} {variability}".split()))


# Name, whether it is a link, metres, taps and spacing at most, the three bases, the delay a metre, the variability.
MEDIA = {
    kind.name: kind
    for kind in (
        medium("10BASE5", False, "500 100 2.5", "11.75 46.5 169.5", "0.0866", "16 11"),
        medium("10BASE2", False, "185 30 0.5", "11.75 46.5 169.5", "0.1026", "16 11"),
        medium("FOIRL", True, "1000 2 0", "7.75 29 152", "0.1", "10.5 8"),
        medium("10BASE-T", True, "100 2 0", "15.25 42 165", "0.113", "10.5 8"),
        medium("10BASE-FL", True, "2000 2 0", "12.25 33.5 156.5", "0.1", "10.5 8"),
    )
}

# An AUI cable: its metres at most, how many of them the bases hold already, and its delay for each metre beyond.
MOST_AUI = Decimal(50)
FREE_AUI = Decimal(2)
AUI_PER_METRE = Decimal("0.1026")

# The path between two stations: segments and repeaters at most, and of five segments the coaxial ones with stations.
MOST_SEGMENTS = 5
MOST_REPEATERS = 4
MOST_POPULATED = 3

# In bit times, what the path delay value and the path variability value are at most, and by how much the base of each
# medium's right end is above that of its middle.
MOST_DELAY = Decimal(575)
MOST_VARIABILITY = Decimal(49)
FAR_END = Decimal(123)

# What netsim's round trip of two stations counts for the interframe gap, and the slot time that it stays below.
GAP = Decimal(96)
SLOT = Decimal(512)


def text(number):
    """A decimal number without zeros at its end."""
    return f"{number.normalize() + 0:f}"
