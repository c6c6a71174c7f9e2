"""What holds of the parts of this recipe by hand, or by trying all that there is."""
import itertools
import pathlib
import random

import making
from places import nearest_apart
from standard import FAR_END, MEDIA, Decimal

HERE = pathlib.Path(__file__).resolve().parent

# The path delay value, the path variability value and netsim's round trip of the worked plans, as their heads reckon
# them by hand.
BY_HAND = {
    "maximal": ("537.25", "49", 998),
    "between": ("560.2324", "49", 1038),
    "tree": ("305.269", "26.5", 524),
    "campus": ("377.9668", "35", 628),
    "office": (None, None, 250),
}


def mistakes():
    """All that isn't as it must be, in a sentence each."""
    for kind in MEDIA.values():
        if kind.right - kind.middle != FAR_END:
            yield f"the bases of {kind.name}: a right end's isn't {FAR_END} above a middle's"
    for name, (delay, variability, round_trip) in BY_HAND.items():
        survey = making.make((HERE / "plans" / f"{name}.toml").read_bytes()).survey
        wanted = (delay and Decimal(delay), variability and Decimal(variability), round_trip)
        got = (survey.delay.value, survey.variability.value, survey.round_trip.value)
        if got != wanted:
            yield f"{name}: the worst values are {got}, not {wanted}"
    draw = random.Random(1)
    for _ in range(50):
        places = sorted(Decimal(draw.randint(0, 40)) / 10 for _ in range(draw.randint(1, 4)))
        if moved(places, nearest_apart(places)) != least_moved(places):
            yield f"the places {places} are moved by more than serves"


def moved(wanted, places):
    """The sum of squares of what places are moved by, which must be in order."""
    assert all(low < high for low, high in itertools.pairwise(places))
    return sum((place - number) ** 2 for place, number in zip(places, wanted))


def least_moved(wanted):
    """The least such sum, over all places in order that are near."""
    return min(moved(wanted, places) for places in itertools.combinations(range(-3, 9), len(wanted)))
