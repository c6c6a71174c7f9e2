"""Makes the inputs of each kind, each by its seed alone, from bases that are there and bases that are made."""
import errno
import functools
import pathlib
import random
import signal

import faults
import layouts
import making
import mutate
import views
import words
from judges import Case
from runner import FOLDER, LIBRARY_CALLS
from runs import Wrong

TOP = pathlib.Path(__file__).resolve().parent.parent
SMALL = 6000

# How often each kind comes in a turn.
TURN = (["layout", "load", "log", "state"] * 4 + ["layout"] * 4 + ["memory", "calls", "signal", "words"] * 2 + ["runs"])


@functools.lru_cache(None)
def bases():
    """The folders of examples/ and .ci/runs whose files are a few KB: by folder the files, without what a run left."""
    found = []
    for layout in sorted([*TOP.glob("examples/*/*.toml"), *TOP.glob(".ci/runs/*/l.toml")]):
        near = [path for path in layout.parent.iterdir() if path.suffix in (".pcap", ".pcapng")
                and not path.name.startswith("out.")]
        files = {path.name: path.read_bytes() for path in near}
        files["l.toml"] = layout.read_bytes()
        if sum(map(len, files.values())) < SMALL:
            found.append((layout, files))
    return found


@functools.lru_cache(None)
def kept_logs():
    return [path.read_bytes() for path in sorted([*TOP.glob("examples/*/out.log"), *TOP.glob(".ci/runs/*/out.log")])
            if path.stat().st_size < SMALL]


def made(dice, bits=3000):
    """The files of a random layout without a fault."""
    files = {}
    tree = making.with_loads(dice, making.sound(dice, bits), files)
    files["l.toml"] = making.spell(dice, tree).encode()
    return tree, files


def any_layout(dice):
    if dice.random() < 0.5:
        return dice.choice(bases())[1]
    return made(dice)[1]


def deep(dice):
    """Values, tables or keys that stand in each other deeply."""
    many = dice.choice([20, 79, 80, 81, 100, 500, 3000])
    return dice.choice([b"x = " + b"[" * 20 * many, b"x = " + b"[" * many + b"]" * many + b"\n",
                        b"x = " + b"{a=" * 20 * many, b"a." * many + b"b = 1\n", b"[" + b"a." * many + b"b]\n"])


def make_layout(dice, runner, seed):
    """Half are changed as texts, half as trees, which are spelled in many ways."""
    form = dice.choice([["check", "l.toml"]] * 6 + [["slack", "l.toml"], ["plain", "l.toml", "out"],
                                                    ["run", "l.toml", "out", "3"]])
    if dice.random() < 0.5:
        files = dict(any_layout(dice))
        other = any_layout(dice)["l.toml"]
        files["l.toml"] = mutate.mutate(dice, files["l.toml"], "layout", other)
    else:
        files = {}
        tree = making.with_loads(dice, making.sound(dice, 1000), files)
        if dice.random() < 0.8:
            tree = making.break_tree(dice, tree)
        if dice.random() < 0.005:
            tree, form = making.crowd(dice, tree), ["check", "l.toml"]
        files["l.toml"] = making.spell(dice, tree, plain=dice.random() < 0.3).encode()
        if dice.random() < 0.01:
            files["l.toml"] += deep(dice)
        if dice.random() < 0.0005:
            files["l.toml"] = files["l.toml"].ljust(layouts.MOST_OCTETS + dice.choice([0, 1]), b"\n")
    return Case("layout", files, form)


def make_load(dice, runner, seed):
    """One load of a layout with one to three stations is changed."""
    files = {}
    tree = making.sound(dice, 600)
    stations = tree.setdefault("station", [])
    if not stations:
        stations.append({"name": "a", "segment": "g0", "at": 1999})
    loads = [name for _, base in bases() for name in base if name != "l.toml"]
    for station in stations[:3]:
        station["load"] = name = dice.choice(["1.pcap", f"{station['name']}.pcap"])
        kept = next((base[n] for _, base in bases() for n in base if n == name), None) if loads else None
        files[name] = kept if kept and dice.random() < 0.2 else making.load(dice, end=1200)
    name = dice.choice(list(files))
    files[name] = mutate.mutate(dice, files[name], "load", making.load(dice))
    files["l.toml"] = making.spell(dice, tree).encode()
    return Case("load", files, dice.choice([["plain", "l.toml", "out"], ["run", "l.toml", "out", "2"]]))


def base_of(runner, seed, name, size, make):
    """What a base seed gives, which is the same for a number of seeds in a row."""
    key = (name, seed // size)
    if runner.bases.get(name, (None,))[0] != key:
        runner.bases[name] = key, make(random.Random(f"base {name} {seed // size}"))
    return runner.bases[name][1]


def log_of_run(runner, dice):
    tree, files = made(dice)
    runner.put(files)
    outcome = runner.run(["plain", "l.toml", "out"])
    return tree, files, outcome.files.get("out.log", b"")


def make_log(dice, runner, seed):
    tree, files, log = base_of(runner, seed, "log", 256, lambda own: log_of_run(runner, own))
    is_picture = dice.random() < 0.4
    if not is_picture and dice.random() < 0.4:
        log = dice.choice(kept_logs())
    if dice.random() < 0.95:
        log = mutate.mutate(dice, log, "log", dice.choice(kept_logs()))
    if not is_picture:
        return Case("log", {"x.log": log}, ["meter", "x.log"])
    begin = dice.randrange(2 * tree["until_bits"])
    form = ["picture", "l.toml", "x.log", str(begin), str(begin + dice.choice([1, 500, 5000]))]
    return Case("log", {"l.toml": files["l.toml"], "x.log": log}, form)


def state_of_run(runner, dice):
    """A layout with a state of it that has rows, where one is found soon, and another state."""
    for _ in range(8):
        tree, files = made(dice)
        texts = []
        for begin in (tree["until_bits"], 0):
            runner.put(files)
            outcome = runner.run(["stop", "l.toml", "out", str(begin)])
            texts.append(outcome.files.get("out.state", b""))
        if b"row" in texts[0]:
            break
    return files, texts[0] or texts[1], texts[1]


def make_state(dice, runner, seed):
    files, state, other = base_of(runner, seed, "state", 256, lambda own: state_of_run(runner, own))
    files = {**files, "out.state": mutate.mutate(dice, state, "state", other)}
    return Case("state", files, ["resume", "l.toml", "out"])


def make_runs(dice, runner, seed):
    _, files = made(dice, dice.choice([500, 2000, 6000]))
    if dice.random() < 0.1:
        files = dict(dice.choice(bases())[1])
    return Case("runs", files, ["plain", "l.toml", "out"], note=dice.choice(["1 2 7 64", "1 2 7 64", "2 3 5 16"]))


def make_words(dice, runner, seed):
    files = {"l.toml": next(files for path, files in bases() if path.parent.name == "two-hops")["l.toml"]}
    return Case("words", files, words.make(dice))


# Faults.


def fault_base(dice, runner):
    """Files, some of them older ones, and words of any form."""
    tree, files = made(dice, 1500)
    if dice.random() < 0.2:
        files = dict(dice.choice(bases())[1])
        tree = {"until_bits": 300, "station": []}
    form = dice.choice(["plain"] * 2 + ["run"] * 2 + ["check", "slack", "stop", "resume", "meter", "picture", "frames",
                                                      "probe", "page"])
    if form in ("meter", "picture", "frames", "resume"):
        runner.put(files)
        outcome = runner.run(["stop", "l.toml", "out", str(tree["until_bits"])] if form == "resume"
                             else ["plain", "l.toml", "out"])
        wanted = "out.state" if form == "resume" else "out.log"
        files["out.state" if form == "resume" else "x.log"] = outcome.files.get(wanted, b"")
    taps = views.taps_of(tree)[:2] or ["a"]
    rest = {"run": ["out", dice.choice("1237")], "plain": ["out"], "stop": ["out", "500"], "resume": ["out"],
            "picture": ["x.log", "0", "1000"], "frames": ["x.log"], "probe": ["0", "600", *taps],
            "page": ["0", "600"]}.get(form, [])
    if dice.random() < 0.5:
        files.update({"out.log": faults.OLD, "out.counters": faults.OLD, "out.a.pcap": faults.OLD})
        files.setdefault("out.state", faults.OLD)
    return files, [form, "x.log" if form == "meter" else "l.toml", *rest]


def with_counts(dice, runner, seed, name, size):
    """A base, and how many calls of each kind its run makes; None where that run is wrong, which its judge tells."""
    files, form = base_of(runner, seed, name, size, lambda own: fault_base(own, runner))
    case = Case(name, files, form)
    try:
        good = faults.good_run(runner, case)
    except Wrong:
        return case, None, None
    return case, runner.kept["counts"], good


def nth(dice, many):
    """One of the calls, the first ones more often."""
    return dice.randint(1, max(1, many if dice.random() < 0.6 else min(many, 40)))


def make_memory(dice, runner, seed):
    case, counts, _ = with_counts(dice, runner, seed, "memory", 1024)
    if counts is None:
        return case
    kind = "thread" if counts["thread"] and dice.random() < 0.1 else "memory"
    first = nth(dice, counts[kind])
    last = dice.choice([first, first, 0, first + dice.choice([1, 5, 50])])
    case.fault = f"{LIBRARY_CALLS.index(kind)} {first} {last} f {errno.ENOMEM}"
    return case


def make_calls(dice, runner, seed):
    case, counts, _ = with_counts(dice, runner, seed, "calls", 1024)
    if counts is None:
        return case
    if dice.random() < 0.1:
        written = [*faults.written_by(case), "out.x"]
        case.note = dice.choice(["", "/dev/full"])
        case.files = {**case.files, **({} if case.note else {dice.choice(written): FOLDER})}
        return case
    kind = dice.choice([kind for kind in ("open", "read", "write", "seek") if counts[kind]] or ["write"])
    first = nth(dice, counts[kind])
    last = dice.choice([first, first, 0])
    what = "h" if kind in ("read", "write") and dice.random() < 0.5 else "f"
    number = dice.choice([errno.EIO, errno.ENOSPC, errno.EINTR, errno.EACCES, errno.EMFILE, errno.EAGAIN, errno.EPIPE])
    if number == errno.EINTR:
        last = first + 2
    case.fault = f"{LIBRARY_CALLS.index(kind)} {first} {last} {what} {number}"
    return case


def make_signal(dice, runner, seed):
    case, counts, good = with_counts(dice, runner, seed, "signal", 1024)
    if counts is None:
        return case
    number = dice.choice([signal.SIGTERM, signal.SIGINT, signal.SIGKILL])
    if dice.random() < 0.5:
        case.kill = (int(number), dice.random() * 1.3 * good.seconds)
    else:
        kind = dice.choice(["open", "read", "write", "memory"])
        case.fault = f"{LIBRARY_CALLS.index(kind)} {nth(dice, counts[kind])} 0 s {int(number)}"
    return case


ORDER = sorted(set(TURN), key=TURN.index)
MAKERS = {"layout": make_layout, "load": make_load, "log": make_log, "state": make_state, "runs": make_runs,
          "words": make_words, "memory": make_memory, "calls": make_calls, "signal": make_signal}


def make(kind, seed, runner):
    """The input of a kind and a seed."""
    return MAKERS[kind](random.Random(f"{kind} {seed}"), runner, seed)
