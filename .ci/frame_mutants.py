"""Layouts, loads and logs that soak/ makes and changes, most of which have a fault, with what its own readers say."""
import random
import typing

import captures
import frame_cases
import layouts
import logs
import making
import mutate


NAMES = ("damaged layouts", "damaged loads", "damaged logs")


class Mutant(typing.NamedTuple):
    """A file's octets, its kind, and what it must be: a layout without a fault or not, the records of a load or its
    fault's line, and the rows of a log or its fault's line."""

    number: int
    kind: str
    octets: bytes
    wanted: object


def said_of_layout(octets):
    try:
        return layouts.read(octets) is not None
    except layouts.Fault:
        return False


def said_of_load(octets):
    try:
        return [(one.nanos, len(one.octets), one.original) for one in captures.read(octets)]
    except captures.Fault as fault:
        return fault.line("a")


def said_of_log(octets):
    try:
        return [(row.t, row.name, row.what) for row in logs.read(octets)]
    except logs.Fault as fault:
        return str(fault)


def layout_of(dice):
    """Half are changed as trees, half as texts. One in which readers of TOML may differ by design isn't taken."""
    while True:
        tree, files = making.sound(dice), {}
        making.with_loads(dice, tree, files)
        if dice.random() < 0.5:
            tree = making.break_tree(dice, tree)
        octets = making.spell(dice, tree, plain=dice.random() < 0.5).encode()
        octets = mutate.mutate(dice, octets, "layout", octets) if dice.random() < 0.5 else octets
        if not layouts.excuse(octets):
            return octets


def mutants(many):
    """So many of each kind."""
    kept = [path.read_bytes() for path in sorted(frame_cases.TOP.glob("examples/*/out.log"))]
    for number in range(many):
        dice = random.Random(f"mutant {number}")
        octets = layout_of(dice)
        yield Mutant(number, "layout", octets, said_of_layout(octets))
        octets = mutate.mutate(dice, making.load(dice), "load", making.load(dice))
        yield Mutant(number, "load", octets, said_of_load(octets))
        octets = mutate.mutate(dice, dice.choice(kept), "log", dice.choice(kept))
        yield Mutant(number, "log", octets, said_of_log(octets))


def answer(command, mutant):
    """What the recipe's reader says of the same."""
    try:
        if mutant.kind == "layout":
            return command.layout_file.read("l.toml", mutant.octets) is not None
        if mutant.kind == "load":
            return [tuple(record) for record in command.load_file.records(mutant.octets, 0, "a")]
        return [(row.at, row.name, row.what) for row in command.log_file.rows(mutant.octets)]
    except command.Refusal as refusal:
        return False if mutant.kind == "layout" else refusal.line
    except Exception as error:
        return repr(error)


def complaints(command, made):
    """The mutants of which the two readers say different things."""
    return [(f"damaged {mutant.kind}s", f"{mutant.kind} {mutant.number}: {mutant.octets!r}") for mutant in made
            if answer(command, mutant) != mutant.wanted]
