"""The runs whose tables .ci/frames looks at: those of the repository, random ones, and two with a closed
port."""
import importlib
import io
import pathlib
import random
import shutil
import struct
import subprocess
import sys
import typing

TOP = pathlib.Path(__file__).resolve().parent.parent
sys.dont_write_bytecode = True
sys.path.append(str(TOP / "soak"))
import captures
import layouts
import logs
import making


class Failed(Exception):
    """A run isn't as it must be, as a sentence."""


class Case(typing.NamedTuple):
    """A run that has ended, as the readers of soak/ read it."""

    folder: pathlib.Path
    said: list
    counters: dict
    tree: dict
    queues: list
    rows: list

    @property
    def stations(self):
        return [station["name"] for station in self.tree.get("station", [])]

    @property
    def half_bits(self):
        return 2 * self.tree["until_bits"]

    def captured(self):
        """All frames that stations received, with their pads."""
        return [record.octets for name in self.stations
                for record in captures.read((self.folder / f"out.{name}.pcap").read_bytes())]


def isolated(folders, name):
    """A module of these folders with those that it imports from there, apart from others of the same names."""
    names = {path.stem for folder in folders for path in folder.glob("*.py")}
    kept = {one: sys.modules.pop(one) for one in names if one in sys.modules}
    sys.path[:0] = map(str, folders)
    importlib.invalidate_caches()
    try:
        return importlib.import_module(name)
    finally:
        del sys.path[: len(folders)]
        for one in names:
            sys.modules.pop(one, None)
        sys.modules.update(kept)


def read_case(folder, said):
    tree = layouts.read((folder / "l.toml").read_bytes())
    loads = captures.read_loads(tree, lambda name: (folder / name).read_bytes())
    counters = {}
    for line in (folder / "out.counters").read_text().splitlines():
        kind, name, *words = line.split()
        counters[name] = {"kind": kind, **dict(zip(words[0::2], map(int, words[1::2])))}
    rows = logs.read((folder / "out.log").read_bytes())
    return Case(folder, said.splitlines(), counters, tree, captures.queues(tree, loads), rows)


def run(program, folder):
    """The case of a layout and its loads that stand in a folder."""
    done = subprocess.run([program, "plain", "l.toml", "out"], cwd=folder, stdout=subprocess.PIPE,
                          stderr=subprocess.DEVNULL, text=True, check=False)
    if done.returncode:
        raise Failed(f"{folder.name}: plain ended with status {done.returncode}: {done.stdout}")
    return read_case(folder, done.stdout)


def kept(work):
    """Folders with the layouts and the loads of examples/ and .ci/runs that can be run."""
    homes = [path.parent for path in TOP.glob("examples/*/summary")]
    homes += [path.parent for path in TOP.glob(".ci/runs/*/status") if path.read_text().strip() == "0"]
    for home in sorted(homes):
        folder = work / home.name
        folder.mkdir()
        for path in [home / "l.toml", *home.glob("*.pcap")]:
            if not path.name.startswith("out."):
                shutil.copy(path, folder)
        yield folder


class Tags:
    """Makes each frame of a run differ from the others, by a number in its sender's address."""

    def __init__(self):
        self.count = 0

    def on(self, octets):
        if len(octets) < 14:
            return octets
        self.count += 1
        return octets[:8] + struct.pack(">I", self.count) + octets[12:]

    def on_load(self, octets):
        """A load of the same form, times and lengths."""
        order, scale = captures.MAGICS[octets[:4]]
        records = captures.read(octets)
        return captures.header(order, scale) + b"".join(
            captures.record(self.on(one.octets), one.nanos, order, scale, one.original) for one in records)


def random_layout(dice, folder):
    """A layout that soak/ makes, with loads, in which each frame differs from the others."""
    tree, files, tags = making.sound(dice), {}, Tags()
    making.with_loads(dice, tree, files)
    for send in tree.get("send", []):
        send["octets"] = tags.on(bytes.fromhex(send["octets"])).hex()
    for station in tree.get("station", []):
        if "load" in station:
            octets = tags.on_load(files[station["load"]])
            station["load"] = f"{station['name']}.pcap"
            (folder / station["load"]).write_bytes(octets)
    (folder / "l.toml").write_text(making.spell(dice, tree))


def random_traffic(dice, folder, traffic):
    """A layout and loads that recipes/traffic draws, at times with a long cable."""
    kind = dice.choice(["segment", "segment", "repeater:2", "repeater:3", "repeater:5"])
    words = {"stations": dice.randint(2, 12), "share": dice.choice(["0.3", "0.8", "1.5", "5"]),
             "octets": dice.choice(["64", "64,1518", "64:7,576:4,1518:1"]), "seconds": dice.choice(["0.003", "0.01"]),
             "seed": dice.randrange(1000), "arrivals": dice.choice(["poisson", "regular", "bursts"]), "topology": kind,
             "apart": dice.choice([1, 4, 20, 150])}
    words = [word for name, value in words.items() for word in (f"--{name}", str(value))]
    said, errors = io.StringIO(), io.StringIO()
    if traffic.run([*words, str(folder)], said, errors):
        raise Failed(f"traffic {' '.join(words)}: {errors.getvalue()}")


def random_cases(program, work, many):
    """So many random runs, each by its number alone; every fourth one has traffic."""
    traffic = isolated([TOP / "recipes/traffic", TOP / "recipes"], "command")
    for number in range(many):
        dice, folder = random.Random(f"frames {number}"), work / f"random-{number}"
        if number % 4 == 0:
            random_traffic(dice, folder, traffic)
        else:
            folder.mkdir()
            random_layout(dice, folder)
        yield run(program, folder)


# A closed port. As in examples/partition b and c collide at the two ends of y until r closes its port there, and then c
# sends a frame of 204 octets from 12,774 to 16,166. Station e on x sends one of 204 octets, too, which station a
# receives in the very half bit in which c's would come to it. In `shut` e is so near that what r repeats of it meets
# c's frame at the closed port, which stays closed. In `opened` it comes there later, and the port opens just as c's
# frame ends there, 1,000 half bits after c's end.
def frame_of(number):
    return (bytes.fromhex("ffffffffffff 0200000000") + bytes([number]) + b"\x08\0").ljust(200, b"\0").hex()


def closed_port(folder, far):
    """A layout with e, and a 10 half bits nearer to r, so far from r's port on x."""
    folder.mkdir()
    begin = 16_166 + 1000 + 28 + far - 10 - 3392
    text = 'format = 1\nseed = 4\nuntil_bits = 15000\n[[segment]]\nname = "x"\n[[segment]]\nname = "y"\n'
    for name, segment, at in (("a", "x", far), ("b", "y", 0), ("c", "y", 2000), ("e", "x", far + 10)):
        text += f'[[station]]\nname = "{name}"\nsegment = "{segment}"\nat = {at}\n'
    text += '[[repeater]]\nname = "r"\ndelay = 28\n[[repeater.port]]\nsegment = "x"\nat = 0\n'
    text += '[[repeater.port]]\nsegment = "y"\nat = 1000\n'
    for number, (name, at) in enumerate((("b", 0), ("c", 0), ("e", begin)), 1):
        text += f'[[send]]\nstation = "{name}"\nat = {at}\noctets = "{frame_of(number)}"\n'
    (folder / "l.toml").write_text(text)


def closed_ports(program, work):
    """The two runs with a closed port, which must have what they are made for."""
    for name, far, is_opened in (("shut", 1000, False), ("opened", 1990, True)):
        closed_port(work / name, far)
        case = run(program, work / name)
        opened = [row.t for row in case.rows if row.what == "opened"]
        wanted = ["16166 c sent", f"{16_166 + 1028 + far} a received"]
        told = {f"{row.t} {row.name} {row.what}" for row in case.rows}
        if not told.issuperset(wanted) or (17_166 in opened) != is_opened:
            raise Failed(f"{name}: the log has no frame at a closed port whose end meets that of another one")
        yield case


def cases(program, work, many):
    """All runs, each in a folder of its own below this one."""
    yield from (run(program, folder) for folder in kept(work))
    yield from closed_ports(program, work)
    yield from random_cases(program, work, many)
