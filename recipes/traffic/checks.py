"""What must hold of loads and layouts that the command writes, and of what netsim makes of them."""
import filecmp
import hashlib
import io
import math
import os
import shutil
import struct
import subprocess
import typing
import unittest.mock

import command
import loads
import runs
import study

# The simple mix, in octets and weights, and half bits of 50 ns in a second.
SIMPLE_MIX = {64: 7, 576: 4, 1518: 1}
HALF_BITS = 20_000_000

# What is known of a load: of the words below, the sum over its files.
KNOWN = "--stations 3 --share 0.5 --octets 64:7,576:4,1518:1 --seconds 0.1 --seed 7 --arrivals bursts --weights 3,0.5,1"
KNOWN_SUM = "1ac6c8443dbf0c366e7e96523c01f57becd88af3a6e6af3ce65172f85780a00f"


class Failed(Exception):
    """Something isn't as it must be, as a sentence."""


class Frame(typing.NamedTuple):
    """A record of a capture: its half bit, and its octets without the check sequence."""

    at: int
    octets: bytes


def expect(what, wanted, got):
    if wanted != got:
        raise Failed(f"{what}: got {got!r}, not {wanted!r}")
    print(f"{what}: as it must be", flush=True)


def near(what, wanted, got, most):
    """Two numbers are at most so far from each other."""
    if abs(wanted - got) > most:
        raise Failed(f"{what}: got {got}, which is more than {most} from {wanted}")
    print(f"{what}: {got:.4f}, at most {most:.4f} from {wanted:.4f}", flush=True)


def traffic(words, folder):
    """The status of the command, and what it says and complains of."""
    said, errors = io.StringIO(), io.StringIO()
    status = command.run([*words.split(), str(folder)], said, errors)
    return status, said.getvalue(), errors.getvalue()


def made(words, folder):
    """The frames of each station of what the command makes anew."""
    shutil.rmtree(folder, ignore_errors=True)
    status, _, errors = traffic(words, folder)
    if status:
        raise Failed(f"traffic {words}: status {status}: {errors}")
    captures = sorted(folder.glob("*.pcap"), key=lambda path: int(path.stem[1:]))
    return {path.stem: read_load(path) for path in captures}


def read(path):
    """The records of a capture with nanoseconds."""
    octets = path.read_bytes()
    head, place, found = struct.unpack_from("<IHHiIII", octets), 24, []
    if head[:3] != (0xA1B23C4D, 2, 4) or head[6] != 1:
        raise Failed(f"{path}: its head is {head}")
    while place < len(octets):
        seconds, nanoseconds, captured, length = struct.unpack_from("<IIII", octets, place)
        if captured != length or nanoseconds % 50:
            raise Failed(f"{path}: a record at {place} isn't whole, or lies between half bits")
        found.append(Frame(seconds * HALF_BITS + nanoseconds // 50, octets[place + 16 : place + 16 + captured]))
        place += 16 + captured
    return found


def read_load(path):
    """The frames of a load: after a record of no octets at time 0 they are in order, and tell who sends them."""
    first, *found = read(path)
    number = int(path.stem[1:])
    wanted = [frame_of(number, count, frame) for count, frame in enumerate(found, 1)]
    if first != (0, b"") or found != sorted(found, key=lambda frame: frame.at) or found != wanted:
        raise Failed(f"{path}: its frames aren't as README.md has them")
    return found


def frame_of(number, count, frame):
    head = bytes.fromhex("ffffffffffff 02000000") + struct.pack(">HHHII", number, 0x88B5, number, count, frame.at)
    return Frame(frame.at, head.ljust(len(frame.octets), b"\0"))


def everything(stations):
    return [frame for frames in stations.values() for frame in frames]


def asks(frames, seconds):
    """The share of the channel: the preamble of 8 octets, a check sequence of 4, and a gap of 12, at 10 Mb/s."""
    return sum(8 * (8 + len(frame.octets) + 4 + 12) for frame in frames) / (10_000_000 * seconds)


def deviation(lengths, share, seconds):
    """The standard deviation of the share that Poisson arrivals of so many octets, by weights, ask for."""
    weight = sum(lengths.values())
    times = {8 * (20 + octets) / 10_000_000: part / weight for octets, part in lengths.items()}
    mean, square = (sum(time**power * part for time, part in times.items()) for power in (1, 2))
    return math.sqrt(share / mean * square / seconds)


def shares(folder):
    """Each load asks for what chance allows, and ten of them together for two hundredths less or more at most."""
    found = []
    for seed in range(1, 11):
        stations = made(f"--stations 20 --share 0.6 --octets 64 --seconds 0.5 --seed {seed}", folder / "share")
        found.append(asks(everything(stations), 0.5))
    apart = deviation({64: 1}, 0.6, 0.5)
    beyond = [one for one in found if abs(one - 0.6) > 4 * apart]
    expect("poisson, 64 octets, loads beyond four standard deviations", [], beyond)
    near("poisson, 64 octets, mean of ten loads", 0.6, sum(found) / 10, 0.02 * 0.6)
    stations = made("--stations 1 --share 10 --octets 64 --seconds 0.5", folder / "share")
    near("poisson, 64 octets, a share of 10", 10, asks(everything(stations), 0.5), 0.02 * 10)
    stations = made("--stations 5 --share 0.8 --weights 4,2,1,1,0 --seconds 2", folder / "share")
    got = [asks(frames, 2) for frames in stations.values()]
    for number, share in enumerate((0.4, 0.2, 0.1, 0.1, 0), 1):
        near(f"weights, share of station {number}", share, got[number - 1], 4 * deviation(SIMPLE_MIX, share, 2))


def arrivals(folder):
    """Gaps by Poisson have the exponential distribution, regular ones are equal, and bursts the mean size."""
    words = "--share 10 --octets 64 --seconds 0.5"
    times = [frame.at for frame in everything(made(f"--stations 1 {words}", folder / "times"))]
    gaps = [later - earlier for earlier, later in zip([0, *times], times)]
    count, mean = len(gaps), 1344 / 10
    near("poisson, mean gap in half bits", mean, sum(gaps) / count, 4 * mean / math.sqrt(count))
    for times in (0.25, 0.5, 1, 2, 3):
        part = math.exp(-times)
        got = sum(gap >= times * mean for gap in gaps) / count
        near(f"poisson, gaps longer than {times} means", part, got, 4 * math.sqrt(part * (1 - part) / count) + 1 / mean)
    for name, frames in made("--stations 3 --share 0.6 --octets 64,1518 --arrivals regular", folder / "times").items():
        gaps = {later.at - earlier.at for earlier, later in zip(frames, frames[1:])}
        expect(f"regular, gaps of station {name}", {64880}, gaps)
    sizes = {}
    for frame in everything(made(f"--stations 1 --arrivals bursts --burst 8 {words}", folder / "times")):
        sizes[frame.at] = sizes.get(frame.at, 0) + 1
    near("bursts, mean frames", 8, sum(sizes.values()) / len(sizes), 4 * math.sqrt(56 / len(sizes)) + 0.2)
    single = list(sizes.values()).count(1) / len(sizes)
    near("bursts of one frame", 1 / 8, single, 4 * math.sqrt(7 / 64 / len(sizes)) + 0.005)


def lengths(folder):
    """Lengths with check sequences come as often as their weights say."""
    for text, mix in (("512", {512: 1}), ("64,1518", {64: 1, 1518: 1}), ("64:7,576:4,1518:1", SIMPLE_MIX)):
        frames = everything(made(f"--stations 5 --share 2 --octets {text} --seconds 1", folder / "lengths"))
        found = [len(frame.octets) + 4 for frame in frames]
        expect(f"octets {text}, which lengths there are", sorted(mix), sorted(set(found)))
        parts = {octets: weight / sum(mix.values()) for octets, weight in mix.items()}
        mean = sum(octets * part for octets, part in parts.items())
        variance = sum((octets - mean) ** 2 * part for octets, part in parts.items())
        near(f"octets {text}, their mean", mean, sum(found) / len(found), 4 * math.sqrt(variance / len(found)))


def same(one, other, names):
    """Of these files of two folders those that aren't the same."""
    return [name for name in names if not filecmp.cmp(one / name, other / name, shallow=False)]


def seeds(folder):
    """The same words make the same octets, another seed other ones, and a station more leaves the others alone."""
    one, other, names = folder / "one", folder / "other", [f"s{number}.pcap" for number in range(1, 21)]
    words = "--stations 20 --share 0.6 --octets 64,1518 --seed"
    made(f"{words} 1", one)
    made(f"{words} 1", other)
    expect("the same seed, files that differ", [], same(one, other, ["l.toml", *names]))
    made(f"{words} 2", other)
    expect("another seed, files that differ", ["l.toml", *names], same(one, other, ["l.toml", *names]))
    made("--stations 21 --share 0.63 --octets 64,1518 --seed 1", other)
    expect("a station more, loads of the others that differ", [], same(one, other, names))
    made(KNOWN, other)
    octets = b"".join((other / name).read_bytes() for name in ("l.toml", *names[:3]))
    expect("the sum of a load that is known", KNOWN_SUM, hashlib.sha256(octets).hexdigest())


def netsim(folder, *words):
    done = subprocess.run([runs.PROGRAM, *words], cwd=folder, stdin=subprocess.DEVNULL, stdout=subprocess.PIPE,
                          text=True, check=False)
    return done.returncode, done.stdout


def played(words, verdict, folder):
    """netsim takes the layout, each frame has an end, and what is received is what was asked to be sent, later."""
    stations = made(words, folder / "run")
    expect(f"traffic {words}, check", (0, verdict), netsim(folder / "run", "check", "l.toml"))
    expect(f"traffic {words}, plain, status", 0, netsim(folder / "run", "plain", "l.toml", "out")[0])
    sums, frames = study.counters(folder / "run"), everything(stations)
    expect("frames, and records of no octets that are skipped", (len(frames), len(stations)),
           (sums["queued"], sums["short"]))
    expect("frames that were sent, given up or left", len(frames), sums["sent"] + sums["given_up"] + sums["left"])
    asked = {frame.octets.ljust(60, b"\0"): frame.at for frame in frames}
    expect("frames that differ", len(frames), len(asked))
    received = [frame for name in stations for frame in read(folder / "run" / f"out.{name}.pcap")]
    expect("frames that are received", sums["received"], len(received))
    # A frame is received after its preamble, its octets and its check sequence.
    early = [frame for frame in received if frame.at < asked[frame.octets] + 128 + 16 * (len(frame.octets) + 4)]
    expect("frames that are received before they can be", [], early)
    return stations


def refusals(folder):
    """What can't be asked for is refused by one sentence, and nothing is written."""
    wrong = ("--stations 0", "--stations 1025", "--stations x", "--stations", "--share 0", "--share -1", "--share nan",
             "--share 1e9", "--share 101", "--octets 63", "--octets 1519", "--octets 64,", "--octets 64:7,1518",
             "--octets 64:0", "--octets 64:1:1", "--seconds 0", "--seconds 100.1", "--seconds 0.00000001", "--seed -1",
             "--seed 9223372036854775808", "--arrivals never", "--burst 5", "--arrivals bursts --burst 0.5",
             "--weights 1,1", "--weights 0,0,0", "--weights 1,1,x", "--topology ring", "--topology repeater:1",
             "--topology repeater:33", "--delay 20", "--topology repeater:2 --delay 201", "--apart 0", "--apart 1001",
             "--stations 501 --apart 1 --seconds 1", "--stations 401 --seconds 0.1 --apart 6", "--weights 1,2,3,4",
             "--sha 0.6", "--speed 100", "more")
    out = folder / "refused"
    out.mkdir(parents=True, exist_ok=True)
    for words in ("", "--stations 3", "--share 0.6", *(f"--stations 3 --share 0.6 {words}" for words in wrong)):
        status, said, errors = traffic(words, out / "l")
        if (status, said) != (2, "") or not errors.startswith("traffic: ") or errors.count("\n") != 1:
            raise Failed(f"traffic {words}: status {status}, {said!r}, {errors!r}")
        if os.listdir(out):
            raise Failed(f"traffic {words}: there is {os.listdir(out)}")
    print(f"{len(wrong) + 3} refusals: as they must be", flush=True)
    words = "--stations 3 --share 0.6"
    expect("a folder that is there already, status", 2, traffic(words, out)[0])
    expect("a folder in a folder that isn't there, status", 3, traffic(words, out / "not" / "there")[0])
    # What netsim reads of one load, and of all, is less here; the loads have some 125,000 octets each.
    for limit, most in (("MOST_OCTETS", 100_000), ("MOST_OF_ALL", 300_000)):
        with unittest.mock.patch.object(loads, limit, most):
            expect(f"loads beyond {limit}, status", 2, traffic(words, out / "l")[0])
    expect("what is written after refusals", [], os.listdir(out))


def tshark(folder, stations):
    """tshark reads a load: the record of no octets, and the frames, of one station."""
    if not shutil.which("tshark"):
        print("tshark: not there, skipped")
        return
    for number, (name, frames) in enumerate(list(stations.items())[:3], 1):
        fields = [word for field in ("frame.len", "eth.src", "eth.type") for word in ("-e", field)]
        done = subprocess.run(["tshark", "-r", folder / f"{name}.pcap", "-T", "fields", *fields],
                              stdout=subprocess.PIPE, stderr=subprocess.DEVNULL, text=True, check=True)
        address = f"02:00:00:00:00:{number:02x}"
        wanted = [["0"]] + [[str(len(frame.octets)), address, "0x88b5"] for frame in frames]
        expect(f"{name}.pcap by tshark", wanted, [line.split() for line in done.stdout.splitlines()])


def look(folder):
    """All checks. They work in this folder."""
    folder.mkdir(parents=True, exist_ok=True)
    shares(folder)
    arrivals(folder)
    lengths(folder)
    seeds(folder)
    refusals(folder)
    # Two ways of a cable of 19 times 4 half bits, and the gap; and of 7 times 4, the repeater's 46, and 7 times 4.
    words = "--stations 20 --share 0.6 --octets 64,1518 --seconds 0.5 --seed 1"
    tshark(folder / "run", played(words, "within 344 s1 s20\n", folder))
    words = "--stations 20 --share 1.2 --seconds 0.1 --topology repeater:3 --arrivals bursts"
    played(words, "within 396 s19 s20\n", folder)
