"""Stations that answer: programs in Python that send because of what they received, on the network that netsim runs.

`play(layout, stations)` finds the run in which each station sends exactly what its program asks for, to the half bit.
README.md has a worked example. All times are half bits, of 50 ns each."""
import copy
import dataclasses
import itertools
import os
import pathlib
import re
import shutil
import struct
import subprocess
import tempfile
import typing

PROGRAM = os.path.abspath(os.environ.get("NETSIM", pathlib.Path(__file__).resolve().parents[2] / "netsim"))

WAYS = ("run", "plain", "states")

# In half bits, and what a half bit has.
MICROSECOND = 20
NANOSECONDS = 50
NEVER = float("inf")

# A layout's limits (docs/formats.md).
MOST_TEXT, MOST_SENDS = 1_048_576, 65_536

# Octets of a capture's header and of a record's, and the status of `stop` where no half bit is quiet.
CAPTURE_HEADER, RECORD_HEADER = 24, 16
NO_QUIET = 9

# For how many half bits a run goes on at first beyond what is settled; the rest of it is run when it is needed.
FIRST_STEP = 65_536

UNTIL = re.compile(r"^until_bits[ \t]*=[ \t]*([0-9_]+)", re.M)
FIRST_TABLE = re.compile(r"^[ \t]*\[", re.M)


def microseconds(number):
    """So many microseconds in half bits."""
    return round(number * MICROSECOND)


def in_microseconds(half_bits):
    """So many half bits in microseconds."""
    return half_bits / MICROSECOND


class AnswersError(Exception):
    """Why there is no result, as a sentence."""


class BadLayout(AnswersError):
    """The layout can't be used for this."""


class RunFailed(AnswersError):
    """netsim refuses the layout, or a run of it failed."""


class BadWish(AnswersError):
    """A program asks for what no station can do."""


class LooksAhead(AnswersError):
    """A program asks for something at a half bit that isn't after the one in which it asks."""


class NeverSettles(AnswersError):
    """After so many runs as were allowed the programs still ask for new sends."""


class NotRepeatable(AnswersError):
    """A program asks for something else when it is told the same again."""


class RunDiffers(AnswersError):
    """A run of the layout as a whole has something else than the runs by which it was found."""


@dataclasses.dataclass(frozen=True)
class Send:
    """A wish: the station shall send a frame, without pad and check sequence, ready so many half bits from now."""

    octets: bytes
    after: int


@dataclasses.dataclass(frozen=True)
class Timer:
    """A wish: `timer` shall be called with this name in so many half bits, in place of any timer of that name that
    runs; with None that one is stopped."""

    name: str
    after: typing.Optional[int]


class Station:
    """A program of a station. Each call is told the half bit, and returns a list of wishes, `Send` and `Timer`, or
    nothing."""

    def start(self, now):
        """The run begins, at half bit 0."""

    def received(self, now, octets):
        """The station received a frame, whatever its address: with its pad, without its check sequence."""

    def timer(self, now, name):
        """The timer of this name goes off."""


@dataclasses.dataclass(frozen=True)
class Asked:
    """A send that a program asked for: from which half bit on it is ready, and in which it was asked for."""

    station: str
    ready: int
    octets: bytes
    asked: int


@dataclasses.dataclass(frozen=True)
class Reception:
    """A frame that a station received."""

    at: int
    station: str
    octets: bytes


@dataclasses.dataclass
class Played:
    """What `play` gives: the layout with all sends, the lines of its log, for each station what it received, as pairs
    of half bit and octets, and its counters; the programs as they ended, what they asked for in order of asking, and
    how many runs of netsim that took, over how many half bits."""

    layout: str
    log: typing.List[str]
    captures: typing.Dict[str, typing.List[typing.Tuple[int, bytes]]]
    counters: typing.Dict[str, typing.Dict[str, int]]
    stations: typing.Dict[str, Station]
    sends: typing.List[Asked]
    runs: int
    stepped: int


def later(who, what, after):
    """For how many half bits what is asked for is put off, which has to be so many."""
    if not isinstance(after, int):
        raise BadWish(f"{who} asks for {what} after {after!r}: give a whole number of half bits")
    if after < 1:
        raise LooksAhead(f"{who} asks for {what} after {after} half bits: an answer comes at least one half bit later")
    return after


class Programs:
    """The programs of the stations, as far as they were told what happens before the end, and what they asked for."""

    def __init__(self, stations, end):
        self.stations = copy.deepcopy(stations)
        self.end = end
        self.asked = []
        self.timers = {}
        self.numbers = itertools.count()

    def start(self):
        for name, station in self.stations.items():
            self.take(0, name, station.start(0))

    def go_on(self, receptions, end, till_news=True):
        """Tells what happens before half bit `end`, in each half bit the receptions first, then the timers in the order
        in which they were set; or till news: before any send that is asked for meanwhile is ready. Returns the half bit
        before which all was told."""
        waiting = list(reversed(receptions))
        seen = len(self.asked)
        while True:
            if till_news:
                end = min([end, *(one.ready for one in self.asked[seen:])])
                seen = len(self.asked)
            heard = waiting[-1].at if waiting else NEVER
            due, _, station, name = min(self.timers.values(), default=(NEVER, 0, "", ""))
            if min(heard, due) >= end:
                return end
            if heard <= due:
                reception = waiting.pop()
                station = reception.station
                self.take(heard, station, self.stations[station].received(heard, reception.octets))
            else:
                del self.timers[station, name]
                self.take(due, station, self.stations[station].timer(due, name))

    def take(self, now, station, wishes):
        """Notes what a program wishes."""
        who = f"at half bit {now} station {station}"
        if not isinstance(wishes, (list, tuple, type(None))):
            raise BadWish(f"{who} returns {wishes!r}: give a list of Send and Timer, or nothing")
        for wish in wishes or ():
            if isinstance(wish, Send):
                self.ask(now, station, wish.octets, later(who, "a frame", wish.after))
            elif not isinstance(wish, Timer):
                raise BadWish(f"{who} returns a list with {wish!r}, which is neither Send nor Timer")
            elif wish.after is None:
                self.timers.pop((station, wish.name), None)
            else:
                due = now + later(who, f"timer {wish.name}", wish.after)
                self.timers[station, wish.name] = (due, next(self.numbers), station, wish.name)

    def ask(self, now, station, octets, after):
        if not isinstance(octets, (bytes, bytearray)) or not 14 <= len(octets) <= 1518:
            size = f"{len(octets)} octets" if isinstance(octets, (bytes, bytearray)) else repr(octets)
            raise BadWish(f"at half bit {now} station {station} asks for a frame of {size}: give 14 to 1,514 octets "
                          "without the check sequence, or to 1,518 in a layout of format 2")
        if now + after < self.end:
            self.asked.append(Asked(station, now + after, bytes(octets), now))


class Network:
    """A layout to which sends are added, and its runs, in a folder for files that are thrown away."""

    def __init__(self, layout, work, until, way):
        path = pathlib.Path(layout)
        try:
            self.base = path.read_text(encoding="utf-8")
        except (OSError, UnicodeDecodeError) as error:
            raise BadLayout(f"{path} can't be read: {error}") from error
        table = FIRST_TABLE.search(self.base)
        found = UNTIL.search(self.base, 0, table.start() if table else len(self.base))
        if not found:
            raise BadLayout(f"{path} has no line 'until_bits = ..' before its first table: add one")
        if way not in WAYS:
            raise AnswersError(f"there is no way {way!r}: give one of {', '.join(WAYS)}")
        self.name, self.home, self.work, self.way = str(path), path.resolve().parent, work, way
        self.place = found.span(1)
        self.end = 2 * int(found[1].replace("_", "")) if until is None else until + until % 2
        self.read = {}
        self.state = self.again = self.earlier = 0
        self.runs = self.stepped = 0

    def check(self, stations):
        """Looks that the stations are there, and have nothing to send."""
        self.write([], 2)
        self.call("run", 0)
        counters = self.counters()
        for name in stations:
            if name not in counters:
                raise BadLayout(f"{self.name} has no station {name}")
            if any(counters[name][what] for what in ("queued", "short", "long", "snapped")):
                raise BadLayout(f"station {name} of {self.name} has a load or sends: one that answers sends what its "
                                "program asks for and nothing else")
            self.read[name] = CAPTURE_HEADER

    def write(self, asked, end):
        """Writes the layout with these sends, those that are ready first in front, for a run to a half bit."""
        begin, stop = self.place
        text = f"{self.base[:begin]}{end // 2}{self.base[stop:]}\n" + "".join(
            f'[[send]]\nstation = "{one.station}"\nat = {one.ready}\noctets = "{one.octets.hex()}"\n'
            for one in sorted(asked, key=lambda one: one.ready))
        octets = text.encode()
        if len(octets) > MOST_TEXT or len(asked) > MOST_SENDS:
            last = f" that are asked for up to half bit {asked[-1].asked}" if asked else ""
            raise BadLayout(f"{self.name} has {len(octets):,} octets with the {len(asked):,} sends{last}: a layout has "
                            f"at most {MOST_TEXT:,} octets and {MOST_SENDS:,} sends. Let the run end earlier, or give "
                            "shorter frames")
        (self.work / "l.toml").write_bytes(octets)

    def call(self, word, half_bits, prefix="out", last=(), also=()):
        """A run of netsim over so many half bits. Returns what it says, or its status if that is one of `also`."""
        words = [word, str(self.work / "l.toml"), str(self.work / prefix), *(["1"] if word == "run" else last)]
        try:
            # Where the first call has to build the program, that is said on standard error.
            errors = subprocess.DEVNULL if self.runs else None
            done = subprocess.run([PROGRAM, *words], cwd=self.home, stdin=subprocess.DEVNULL, stdout=subprocess.PIPE,
                                  stderr=errors, universal_newlines=True, check=False)
        except OSError as error:
            raise RunFailed(f"{PROGRAM} can't be run, {error.strerror}: NETSIM names the program") from error
        self.runs += 1
        self.stepped += half_bits
        if done.returncode in also:
            return done.returncode
        if done.returncode:
            first = done.stdout.partition("\n")[0]
            raise RunFailed(f"'netsim {word}' of {self.name} ended with status {done.returncode}: {first}")
        return done.stdout

    def run(self, asked, end, known):
        """Runs the network with these sends to a half bit, where all before half bit `known` stays as it is. Returns
        what the stations received and weren't told yet."""
        if self.way == "states":
            self.keep_state(asked, known)
        self.write(asked, end)
        word = "resume" if self.state else {"states": "plain"}.get(self.way, self.way)
        self.call(word, end - self.state)
        self.again += known - self.state
        self.earlier = known
        return self.receptions("out", self.read)

    def keep_state(self, asked, known):
        """Keeps the state of a quiet half bit before half bit `known`, where the runs since the last one went over more
        half bits that were settled than it takes to find one. No later send is ready before it."""
        if self.again <= known or known < 2:
            return
        self.write(asked, known)
        said = self.call("stop", known, last=[str(self.earlier)], also=[NO_QUIET])
        if said != NO_QUIET:
            self.state = int(said.split()[1])
        self.again = 0

    def receptions(self, prefix, places):
        """What the stations received, from these places in their captures on, in order of time."""
        found = [Reception(at, name, octets) for name, place in places.items()
                 for at, octets in records(self.work / f"{prefix}.{name}.pcap", place)]
        return sorted(found, key=lambda one: one.at)

    def told(self, receptions):
        """The programs were told of these."""
        for one in receptions:
            self.read[one.station] += RECORD_HEADER + len(one.octets)

    def counters(self):
        """The counters of each station."""
        rows = [line.split() for line in (self.work / "out.counters").read_text().splitlines()]
        return {row[1]: {word: int(count) for word, count in zip(row[2::2], row[3::2])}
                for row in rows if row[0] == "station"}


def records(path, place=None):
    """The records of a capture that netsim wrote, from a place in it on: pairs of half bit and octets."""
    octets, found = path.read_bytes(), []
    place = CAPTURE_HEADER if place is None else place
    while place < len(octets):
        seconds, nanoseconds, length, _ = struct.unpack_from("<IIII", octets, place)
        place += RECORD_HEADER + length
        found.append(((seconds * 1_000_000_000 + nanoseconds) // NANOSECONDS, octets[place - length:place]))
    return found


def find(network, programs, limit):
    """Runs the network until the programs ask for nothing new. Returns what they were told."""
    programs.start()
    known, step, told = 0, FIRST_STEP, []
    for _ in range(limit):
        end = min(network.end, known + step)
        receptions = network.run(programs.asked, end + end % 2, known)
        before = len(programs.asked)
        known = programs.go_on(receptions, end)
        news = [one for one in receptions if one.at < known]
        network.told(news)
        told += news
        if known == network.end:
            return told
        step = FIRST_STEP if len(programs.asked) > before else 2 * step
    last = programs.asked[-1] if programs.asked else None
    what = f", where station {last.station} asked for the last send at half bit {last.asked}" if last else ""
    raise NeverSettles(f"after {limit} runs of {network.name} only what comes before half bit {known} of {network.end} "
                       f"is settled{what}: let the run end earlier, or give a higher limit")


def confirm(network, programs, stations, told):
    """Runs the layout once as a whole, and tells new programs all that happens in that run: it must be the run that was
    found, and they must ask for its sends."""
    network.call("plain", network.end, "whole")
    for path in sorted(network.work.glob("whole.*")):
        kind = path.name[len("whole."):]
        if path.read_bytes() != (network.work / f"out.{kind}").read_bytes():
            raise RunDiffers(f"the run of {network.name} as a whole has another {kind} than the runs that led there")
    receptions = network.receptions("whole", {name: CAPTURE_HEADER for name in stations})
    for one, other in itertools.zip_longest(receptions, told):
        if one != other:
            raise RunDiffers(f"in the run of {network.name} as a whole there is {one}, where the programs were told "
                             f"{other}")
    again = Programs(stations, network.end)
    again.start()
    again.go_on(receptions, network.end, till_news=False)
    for one, other in itertools.zip_longest(again.asked, programs.asked):
        if one != other:
            raise NotRepeatable(f"told the same again, the programs ask for {one} where they asked for {other}: what a "
                                "program asks for may depend on what it was told, and on nothing else")


def play(layout, stations, until=None, way="run", folder=None, limit=100_000):
    """Finds the run of a layout's file in which stations send what their programs ask for.

    `stations` has a program, a `Station`, by the name of each station that answers; these have no load and no sends in
    the layout. `until` is the half bit at which the run ends, or else the layout says it. FOLDER gets the layout, the
    log, the counters and the captures. The ways give the same: `run` and `plain` run from the beginning each time, by
    windows and by half bits, `states` from a quiet half bit on. There are at most `limit` runs."""
    with tempfile.TemporaryDirectory() as work:
        network = Network(layout, pathlib.Path(work), until, way)
        network.check(stations)
        programs = Programs(stations, network.end)
        told = find(network, programs, limit)
        runs, stepped = network.runs, network.stepped
        confirm(network, programs, stations, told)
        text = (network.work / "l.toml").read_text(encoding="utf-8")
        counters = network.counters()
        if folder is not None:
            pathlib.Path(folder).mkdir(parents=True, exist_ok=True)
            for path in [network.work / "l.toml", *network.work.glob("out.*")]:
                if path.suffix != ".state":
                    shutil.copyfile(path, pathlib.Path(folder) / path.name)
        captures = {name: records(network.work / f"out.{name}.pcap") for name in counters}
        log = (network.work / "out.log").read_text().splitlines()
    return Played(text, log, captures, counters, programs.stations, programs.asked, runs, stepped)
