"""What is known of the recipe's plays, and looked at: whole logs, conversations, refusals, and that all ways of finding
a play find the same."""
import itertools
import pathlib
import random
import re
import shutil
import subprocess
import sys

import answers
import conversation
import hosts
import study

HERE = pathlib.Path(__file__).resolve().parent
NOBODY = "ff:ff:ff:ff:ff:ff"


class Failed(Exception):
    """Something isn't as it must be, as a sentence."""


def compare(what, wanted, got):
    """Names the first item in which two lists differ."""
    if isinstance(wanted, list):
        for place, (one, other) in enumerate(itertools.zip_longest(wanted, got), 1):
            compare(f"{what}, item {place}", one, other)
    elif wanted != got:
        raise Failed(f"{what}: got {got!r}, not {wanted!r}")


def expect(what, wanted, got):
    compare(what, wanted, got)
    print(f"{what}: as it must be", flush=True)


def other_ways():
    """The ways beside `run` that the program knows: an older one may lack `stop`."""
    said = subprocess.run([answers.PROGRAM, "--help"], stdout=subprocess.PIPE, universal_newlines=True, check=False)
    if "netsim stop " in said.stdout:
        return ("plain", "states")
    print("the way 'states': the program has no form 'stop', skipped")
    return ("plain",)


def play(what, layout, stations, folder):
    """The play, which has to be the same by all ways."""
    played = answers.play(layout, stations, folder=folder)
    for way in other_ways():
        again = answers.play(layout, stations, way=way)
        for part in ("layout", "sends", "log", "captures"):
            compare(f"{what} by the way '{way}', {part}", getattr(played, part), getattr(again, part))
        print(f"{what} by the way '{way}': the same, {again.runs} runs over {again.stepped} half bits")
    return played


def same_log(what, name, log):
    expect(f"{what}, the log", (HERE / "expected" / name).read_text().splitlines(), log)


def asked_for(number, target, times):
    """The frames of a host that pings another one: how each is told, with the host that sends it. All requests are
    for host TARGET; it alone answers."""
    own, other = f"192.0.2.{number}", f"192.0.2.{target}"
    own_mac, other_mac = f"02:00:00:00:00:{number:02x}", f"02:00:00:00:00:{target:02x}"
    frames = [(number, conversation.arp(NOBODY, 1, own, other)), (target, conversation.arp(own_mac, 2, other, own))]
    for sequence in range(1, times + 1):
        frames.append((number, conversation.echo(other_mac, 8, own, other, number, sequence)))
        frames.append((target, conversation.echo(own_mac, 0, other, own, number, sequence)))
    return frames


def example():
    """The example of README.md, as it stands there, prints what the page shows."""
    page = (HERE / "README.md").read_text()
    code, shown = re.search(r"```python\n(.*?)```.*?```\n(.*?)```", page, re.S).groups()
    done = subprocess.run([sys.executable, "-B", "-c", code], cwd=HERE, stdout=subprocess.PIPE, universal_newlines=True,
                          check=True)
    expect("the example of README.md", shown.splitlines(), done.stdout.splitlines())


def two_stations(folder):
    """README.md has the sums behind this log."""
    stations = {"a": hosts.Pinger(1, target=2, times=2, first=1000, every=10_000), "b": hosts.Host(2)}
    played = play("two stations", HERE / "two.toml", stations, folder)
    same_log("two stations", "two.log", played.log)
    frames = asked_for(1, 2, 2)
    for name, number in (("a", 1), ("b", 2)):
        heard = [frame for sender, frame in frames if sender != number]
        expect(f"two stations, what {name} heard", heard, conversation.of(folder / f"out.{name}.pcap"))
    # From the wish at 1000 to the reply at 7704, by way of ARP; from 11000 to 14960, without.
    expect("two stations, round trips", {1: 6704, 2: 3960}, played.stations["a"].trips)


def ten_stations(folder):
    """Each pings the next one; all begin at once, so that ten requests of ARP collide."""
    times, names = 2, [f"s{number}" for number in range(1, 11)]
    stations = {name: hosts.Pinger(number, number % 10 + 1, times, first=1000, every=400_000)
                for number, name in enumerate(names, 1)}
    played = play("ten stations", HERE / "ten.toml", stations, folder)
    frames = [frame for number in range(1, 11) for frame in asked_for(number, number % 10 + 1, times)]
    for number, name in enumerate(names, 1):
        heard = sorted(frame for sender, frame in frames if sender != number)
        expect(f"ten stations, what {name} heard", heard, sorted(conversation.of(folder / f"out.{name}.pcap")))
        expect(f"ten stations, pings of {name} with a reply", list(range(1, times + 1)),
               sorted(played.stations[name].trips))
    # All begin at 1200, 4 half bits from a neighbour, and end after the preamble, 128 half bits, and the jam, 64.
    expect("ten stations, the first lines but for draws",
           [f"1392 station {name} collided frame 1 start 1200 attempt 1 hit 4 draw" for name in names],
           [line.rsplit(" ", 1)[0] for line in played.log[:10]])
    print(f"ten stations: {sum(' collided ' in line for line in played.log)} sendings collided")


def short_file(folder):
    """Two blocks, and a frame of the flood that meets the second one. README.md has the sums behind this log."""
    file = bytes(range(256)) * 2 + b"end"
    folder.mkdir(parents=True, exist_ok=True)
    layout = study.write_layout(folder, 1, 50_000, 1518, [10_562])
    played = play("a short file", layout, study.stations(file, thinks=200, timeout=20_000), folder)
    same_log("a short file", "short-file.log", played.log)
    sender, receiver = played.stations["a"], played.stations["b"]
    expect("a short file, what came", file, receiver.file)
    expect("a short file, when it was done, repeated and double blocks", (39_504, 1, 1),
           (sender.done, sender.repeated, receiver.doubles))
    # Sent: 8,720 half bits and five times 1,152. Deferred: 192 for the second copy, 1,336 and 192 for two
    # acknowledgements. The collided block began at 10552 and at 35584.
    expect("a short file, half bits of sending, deferring, colliding", (14_480, 1_720, 25_032),
           study.waits(played, ("a", "b")))


RANDOM = """format = 1
seed = {seed}
until_bits = {bits}
segment = [{{ name = "x" }}, {{ name = "y" }}]
station = [
{stations}]
repeater = [{{ name = "r", delay = {delay}, port = [
  {{ segment = "x", at = {at} }},
  {{ segment = "y", at = 0 }},
] }}]
[[send]]
station = "s0"
at = 5000
octets = "{octets}"
"""


class Random(answers.Station):
    """Answers at random what it receives, and sends at random times."""

    def __init__(self, seed):
        self.dice = random.Random(seed)

    def wishes(self):
        dice, wishes = self.dice, []
        if dice.random() < 0.4:
            octets = bytes(dice.choices(range(256), k=dice.choice((14, 60, 200, 1514))))
            wishes.append(answers.Send(octets, dice.choice((1, 50, 192, 1000, 20_000))))
        if dice.random() < 0.3:
            wishes.append(answers.Timer(dice.choice("tu"), dice.choice((1, 3000, None))))
        return wishes

    def start(self, now):
        return [*self.wishes(), answers.Timer("s", self.dice.randrange(1, 30_000))]

    def received(self, now, octets):
        return self.wishes()

    def timer(self, now, name):
        return [*self.wishes(), *([answers.Timer("s", 40_000)] if name == "s" else [])]


def random_stations(folder, number):
    """Plays of stations that do anything, on two segments with a repeater."""
    folder.mkdir(parents=True, exist_ok=True)
    for seed in range(1, number + 1):
        dice = random.Random(seed)
        names = [f"s{at}" for at in range(dice.randrange(3, 7))]
        rows = "".join(
            f'  {{ name = "{name}", segment = "{dice.choice("xy")}", at = {7 * at + dice.randrange(1, 8)} }},\n'
            for at, name in enumerate(names))
        layout = folder / f"random-{seed}.toml"
        layout.write_text(RANDOM.format(seed=seed, bits=150_000, stations=rows, delay=dice.randrange(1, 60), at=60,
                                        octets="ff" * 14))
        stations = {name: Random(f"{seed} {name}") for name in names[1:]}
        played = play(f"random stations {seed}", layout, stations, folder / f"random-{seed}")
        collided = sum(" collided " in line for line in played.log)
        print(f"random stations {seed}: {len(played.sends)} sends, {collided} sendings collided, {played.runs} runs")


class Now(answers.Station):
    """Sends something at once."""

    def received(self, now, octets):
        return [answers.Send(octets, 0)]


class Single(answers.Station):
    """Returns what is no list."""

    def start(self, now):
        return answers.Timer("on", 1)


class Short(answers.Station):
    """Sends what is no frame."""

    def start(self, now):
        return [answers.Send(bytes(13), 1)]


class Many(answers.Station):
    """Sends more than a layout can hold."""

    def start(self, now):
        return [answers.Send(bytes(1514), 1)] * 345


class Endless(answers.Station):
    """Sends something every 100 half bits, faster than it can be sent."""

    def start(self, now):
        return [answers.Timer("on", 100)]

    def timer(self, now, name):
        return [answers.Send(bytes(14), 1), answers.Timer("on", 100)]


class Moody(answers.Station):
    """Sends another length each time that a program of this kind is started."""

    started = 0

    def start(self, now):
        Moody.started += 1
        return [answers.Send(bytes(14 + Moody.started), 200)]


def refusals(folder):
    """Each kind of error, with its sentence."""
    ping = hosts.Pinger(1, target=2, times=1, first=1000, every=1)
    two = HERE / "two.toml"
    refused("an answer at once", answers.LooksAhead, "at half bit 2372 station b asks for a frame after 0 half bits",
            two, {"a": ping, "b": Now()})
    refused("a wish that is no list", answers.BadWish, "give a list of Send and Timer", two, {"a": Single()})
    refused("a short frame", answers.BadWish, "asks for a frame of 13 octets", two, {"a": Short()})
    refused("too many sends", answers.BadLayout, "with the 345 sends that are asked for up to half bit 0", two,
            {"a": Many()})
    refused("an endless program", answers.NeverSettles, "after 20 runs of", two, {"a": Endless()}, limit=20)
    refused("a program with moods", answers.NotRepeatable, "told the same again", two, {"a": Moody()})
    refused("a station with a load", answers.BadLayout, "station f of", folder / "flooded.toml", {"f": ping})
    refused("a station that isn't there", answers.BadLayout, "no station c", two, {"c": ping})
    wrong = folder / "wrong.toml"
    wrong.write_text("format = 1\nseed = 1\nuntil_bits = 10\nsegment = []\n")
    refused("a layout with a fault", answers.RunFailed, "layout fault 6 OutOfRange table file row 0 port 0 key segment",
            wrong, {})


    other = folder / "other"
    other.write_text(f'#!/bin/sh\n"{answers.PROGRAM}" "$@" || exit\nif [ "$1" = plain ]; then echo >>"$3.log"; fi\n')
    other.chmod(0o755)
    program, answers.PROGRAM = answers.PROGRAM, str(other)
    try:
        refused("another run as a whole", answers.RunDiffers, "as a whole has another log", two, {"a": ping})
    finally:
        answers.PROGRAM = program


def refused(what, kind, sentence, layout, stations, **more):
    try:
        answers.play(layout, stations, **more)
    except answers.AnswersError as error:
        expect(f"{what}, the error", (kind, True), (type(error), sentence in str(error)))
        return
    raise Failed(f"{what}: no error")


def tools():
    """Names what is skipped for want of a tool."""
    if not shutil.which("tshark"):
        print("tshark: not there, its reading of the captures is skipped")
