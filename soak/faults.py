"""What is right of a run in which memory is wanting, a call of the system fails or does half, or a signal ends it."""
import signal
from dataclasses import replace

import runs
from judges import JUDGES, check_end, expect, tree_or_fault
from runner import FOLDER, LIBRARY_CALLS
from runs import Wrong

OLD = b"an older file, which has to stay or go as a whole\n" * 3


def written_by(case):
    """The files that a form of words writes, in their order."""
    form = case.words[0]
    if form == "stop":
        return ["out.state"]
    if form not in ("plain", "run", "resume"):
        return []
    tree, _ = tree_or_fault(case.files["l.toml"])
    return ["out" + name for name in runs.expected_files(tree)] if tree else []


def check_front(case, good, got):
    """The files before one are whole, that one is as it was or a front, later ones are untouched; so are all others."""
    order = written_by(case)
    begun = True
    for name in order:
        before, after, whole = (files.get(name) for files in (case.files, got.files, good.files))
        if begun and after == whole:
            continue
        is_front = None not in (after, whole) and after != FOLDER and whole.startswith(after)
        if after != before and not (begun and is_front):
            raise Wrong(f"{name} is a front of what it has to be, or as before, and later files are as before",
                        f"{after!r}, after {got.status}")
        begun = False
    for name in {*case.files, *got.files} - set(order):
        expect(f"{name} is as before", case.files.get(name), got.files.get(name))
    return begun


def good_run(runner, case):
    """The run without a fault. Its last one is kept, since many inputs in a row have the same."""
    key = (tuple(case.words), tuple(sorted(case.files.items())))
    if runner.kept.get("key") != key:
        runner.put(case.files)
        good = runner.run(case.words, "")
        check_end(good)
        runner.kept = {"key": key, "good": good, "counts": runner.counts()}
    return runner.kept["good"]


def allowed(kind, what, good):
    """The statuses that a fault of a kind may give, beside that of the run without it."""
    if what == "h":
        return []
    if kind == "write":
        return [5] if good.status == 0 else [good.status]
    return {"memory": [6], "thread": [6], "read": [4], "seek": [4, 5], "open": [4, 5]}[kind]


def named(case):
    """What a read fault may name."""
    names = [word.encode() for word in case.words[1:3]] + [b"out.state"]
    tree, _ = tree_or_fault(case.files.get("l.toml", b""))
    return names + [row["load"].encode() for row in (tree or {}).get("station", []) if "load" in row]


def judge_fault(runner, case):
    """A run with the library: all as without it, or a status that tells the fault and files as that status says."""
    if case.fault is None:
        judge_obstacle(runner, case)
        return
    good = good_run(runner, case)
    runner.put(case.files)
    got = runner.run(case.words, case.fault)
    number, first, last, what, signal_number = case.fault.split()
    kind = LIBRARY_CALLS[int(number)]
    if what == "s" and got.signal == int(signal_number):
        check_stopped(case, good, got)
        return
    check_end(got)
    if got.alike() == good.alike():
        return
    statuses = allowed(kind, what, good)
    if got.status not in statuses:
        raise Wrong(f"status {good.status} and all as without the fault, or one of {statuses}",
                    f"{got.status}, {got.said!r}")
    if got.status == 4:
        expect("no file is begun or changed", case.files, got.files)
        if got.said not in [b"read fault " + name + b"\n" for name in named(case)]:
            raise Wrong("a read fault of a file that is read", repr(got.said))
        return
    if not good.said.startswith(got.said):
        raise Wrong(f"nothing, or a front of {good.said!r}", repr(got.said))
    is_whole = check_front(case, good, got)
    if got.said and good.status == 0 and not is_whole:
        raise Wrong("all files whole where the summary was begun", repr(got.said))


def judge_obstacle(runner, case):
    """A run that finds folders where it has to write files, or a standard output that takes nothing."""
    free = {name: octets for name, octets in case.files.items() if octets != FOLDER}
    good = good_run(runner, replace(case, files=free))
    runner.put(case.files)
    got = runner.run(case.words, to=case.note or None)
    check_end(got)
    is_blocked = case.note or any(case.files.get(name) == FOLDER for name in written_by(case))
    expect("the status", 5 if is_blocked and good.status == 0 else good.status, got.status)
    if got.status == 5:
        check_front(case, good, got)
    else:
        expect("no file is begun or changed", case.files, got.files) if got.status else None
    if not case.note:
        expect("what is said", b"" if got.status == 5 else good.said, got.said)


def check_stopped(case, good, got):
    """A run that a signal ended: nothing or a front is said, and that only where all files are whole."""
    if not good.said.startswith(got.said):
        raise Wrong(f"nothing, or a front of {good.said!r}", repr(got.said))
    is_whole = check_front(case, good, got)
    if got.said and not is_whole:
        raise Wrong("all files whole where the summary was begun", repr(got.said))


def judge_signal(runner, case):
    """A run that gets a signal at some time, or at one of its calls."""
    if case.fault:
        judge_fault(runner, case)
        return
    good = good_run(runner, case)
    runner.put(case.files)
    got = runner.run(case.words, kill=case.kill)
    if case.kill and got.signal == case.kill[0]:
        check_stopped(case, good, got)
        return
    check_end(got)
    if got.alike() != good.alike():
        raise Wrong("all as without the signal, which came too late", f"{got.status}, {got.said!r}")


SIGNALS = [signal.SIGTERM, signal.SIGINT, signal.SIGKILL]
JUDGES.update(memory=judge_fault, calls=judge_fault, signal=judge_signal)
