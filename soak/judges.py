"""What is right of an input, by a rule for each kind: a judge runs the program and raises Wrong where it errs."""
import os
import re
from dataclasses import dataclass, field, replace

import captures
import layouts
import logs
import runner as running
import runs
import states
import views
import words as forms
from runs import Wrong, expect

MOST_WORK = 20_000_000
STATUSES = range(13)


@dataclass
class Case:
    """An input: the files before it, the words, what the library does, and a signal with its time."""

    kind: str
    files: dict
    words: list
    fault: str = None
    kill: tuple = None
    note: str = ""
    excuses: list = field(default_factory=list)


class Excused(Exception):
    """The two readers differ by design."""


def read_file(name):
    """The octets of a regular file of the folder that this process stands in."""
    try:
        if not os.path.isfile(name.encode()):
            return None
        with open(name.encode(), "rb") as file:
            return file.read()
    except (OSError, ValueError):
        return None


def check_end(outcome):
    """A run ends by itself, in time, within its memory, and with a status that is documented."""
    if outcome.late:
        raise Wrong("an end within the time of a run", f"none after {outcome.seconds:.1f} s", True)
    if outcome.signal:
        raise Wrong("an end with a status", f"ended by signal {outcome.signal}")
    if outcome.kilobytes > running.MOST_KILOBYTES:
        raise Wrong("at most 1 GB of memory", f"{outcome.kilobytes >> 10} MB")
    if outcome.status not in STATUSES:
        raise Wrong("a status of 0 to 12", str(outcome.status))


def told(outcome, status, line, files):
    """The status and the line are these, and no file was begun or changed."""
    expect("status and line", (status, line + "\n"), (outcome.status, outcome.said.decode("utf-8", "replace")))
    expect("no file is begun or changed", files, outcome.files)


def tree_or_fault(octets):
    try:
        return layouts.read(octets), None
    except layouts.Fault as fault:
        return None, str(fault)


def judge_layout_fault(case, outcome, line):
    """What was said of a layout that has a fault by the second reader."""
    said = outcome.said.decode("utf-8", "replace")
    is_other = line.startswith("layout fault 1 ") != said.startswith("layout fault 1 ")
    if is_other and (reason := layouts.excuse(case.files[case.words[1]])):
        raise Excused(reason)
    told(outcome, 2, line, case.files)


def work_of(tree):
    return tree["until_bits"] * (len(tree.get("station", [])) + len(tree.get("repeater", [])))


def judge_layout(runner, case):
    """A layout, by `check` or by another form: its first fault, or the verdict, or all that a run leaves."""
    runner.put(case.files)
    tree, line = tree_or_fault(case.files["l.toml"])
    words = case.words
    if tree and words[0] not in ("check", "slack") and work_of(tree) > MOST_WORK:
        words = ["check", "l.toml"]
    loads = captures.read_loads(tree, read_file) if tree else None
    outcome = runner.run(words)
    check_end(outcome)
    if line is not None:
        judge_layout_fault(case, outcome, line)
        return
    if outcome.said.startswith(b"layout fault 1 ") and (reason := layouts.excuse(case.files["l.toml"])):
        raise Excused(reason)
    if words[0] in ("check", "slack"):
        expect("status", 0, outcome.status)
        first, *rest = outcome.said.decode().split("\n")
        expect("the verdict", layouts.verdict(tree), first)
        views.check_slacks(tree, rest) if words[0] == "slack" else expect("one line", [""], rest)
        expect("no file is begun or changed", case.files, outcome.files)
    elif (name := runs.taken_name(tree, words)) is not None:
        told(outcome, 12, f"output fault {name}", case.files)
    else:
        judge_run(case, tree, loads, outcome)


def judge_run(case, tree, loads, outcome):
    """A run of a layout without a fault: the fault of a load, or all that it leaves."""
    if isinstance(loads, str):
        told(outcome, 4 if loads.startswith("read") else 3, loads, case.files)
        return None
    expect("status", 0, outcome.status)
    for name, octets in case.files.items():
        if not name.startswith("out."):
            expect(f"{name} is as before", octets, outcome.files.get(name))
    return runs.check(tree, loads, outcome.said, outcome.files)


def judge_log(runner, case):
    """A log, by `meter` or by `picture`."""
    runner.put(case.files)
    outcome = runner.run(case.words)
    check_end(outcome)
    tree = None
    if case.words[0] == "picture":
        tree, line = tree_or_fault(case.files["l.toml"])
        if line is not None:
            judge_layout_fault(case, outcome, line)
            return
    octets = case.files[case.words[2 if tree else 1]]
    try:
        rows = logs.read(octets)
    except logs.Fault as fault:
        told(outcome, 8, str(fault), case.files)
        return
    if tree is None:
        told(outcome, 0, logs.figures(rows)[:-1], case.files)
        return
    if number := views.first_stranger(tree, rows):
        told(outcome, 11, f"picture fault line {number}", case.files)
        return
    expect("status", 0, outcome.status)
    expect("no file is begun or changed", case.files, outcome.files)
    views.check_picture(octets, rows, int(case.words[3]), int(case.words[4]), outcome.said)


def judge_state(runner, case):
    """A state, by `resume`: its first fault, or a run that begins with its rows."""
    runner.put(case.files)
    tree, line = tree_or_fault(case.files["l.toml"])
    loads = captures.read_loads(tree, read_file) if tree else None
    outcome = runner.run(["resume", "l.toml", "out"])
    check_end(outcome)
    if line is not None:
        judge_layout_fault(case, outcome, line)
        return
    if (name := runs.taken_name(tree, ["resume", "l.toml", "out"])) is not None:
        told(outcome, 12, f"output fault {name}", case.files)
        return
    if isinstance(loads, str):
        told(outcome, 4 if loads.startswith("read") else 3, loads, case.files)
        return
    try:
        kept = states.read(case.files["out.state"], tree, captures.queues(tree, loads))
    except states.Fault as fault:
        told(outcome, 10, str(fault), case.files)
        return
    expect("status", 0, outcome.status)
    written = ["out" + name for name in runs.expected_files(tree)]
    expect("the files", sorted({*case.files, *written}), sorted(outcome.files))
    lines = outcome.files["out.log"].decode().split("\n")
    expect("the log begins with the rows of the state", [line for _, _, line in kept], lines[: len(kept)])
    rows = logs.read(outcome.files["out.log"])
    counters, sums = logs.counters_and_sums(tree, captures.queues(tree, loads), rows)
    expect("the counters", counters, outcome.files["out.counters"].decode())
    expect("the sums", f"half_bits {2 * tree['until_bits']}\n{sums}\n", outcome.said.decode().split("\n", 1)[1])


def files_of(outcome):
    return {name: octets for name, octets in outcome.files.items() if name.startswith("out.") and name != "out.state"}


def same(what, plain, other):
    expect(f"{what}: what `plain` says, status and line", (plain.status, plain.said), (other.status, other.said))
    for name in sorted({*files_of(plain), *files_of(other)}):
        if files_of(plain).get(name) != files_of(other).get(name):
            raise Wrong(f"{what}: {name} as by `plain`, {files_of(plain).get(name)!r}", repr(files_of(other).get(name)))


def judge_runs(runner, case):
    """A layout by half bits, by windows on 1, 2, 7 and 64 workers, and stopped and gone on with, leaves the same."""
    runner.put(case.files)
    tree, line = tree_or_fault(case.files["l.toml"])
    if tree is not None and work_of(tree) > MOST_WORK:
        return
    loads = captures.read_loads(tree, read_file) if tree else None
    plain = runner.run(["plain", "l.toml", "out"])
    check_end(plain)
    if line is not None:
        judge_layout_fault(case, plain, line)
        return
    rows = judge_run(case, tree, loads, plain)
    for workers in case.note.split():
        runner.put(case.files)
        other = runner.run(["run", "l.toml", "out", workers])
        check_end(other)
        same(f"run on {workers} workers", plain, other)
    if rows is None:
        return
    for share in (0, 1, 5, 9):
        judge_stop(runner, case, tree, loads, plain, 2 * tree["until_bits"] * share // 10)
    judge_views(runner, case, tree, rows, plain)


def judge_stop(runner, case, tree, loads, plain, begin):
    runner.put(case.files)
    stop = runner.run(["stop", "l.toml", "out", str(begin)])
    check_end(stop)
    if stop.status == 9 and begin:
        told(stop, 9, "no quiet", case.files)
        return
    expect("status of stop", 0, stop.status)
    expect("the files of stop", {**case.files, "out.state": stop.files.get("out.state")}, stop.files)
    match = re.fullmatch(rb"stopped (\d+)\n", stop.said)
    if not match or not begin <= int(match[1]) < 2 * tree["until_bits"] or (begin == 0 and int(match[1])):
        raise Wrong(f"stopped T, at or after {begin}", repr(stop.said))
    state = stop.files["out.state"]
    try:
        kept = states.read(state, tree, captures.queues(tree, loads))
    except states.Fault as fault:
        raise Wrong(f"a state from {begin} without a fault", str(fault)) from None
    expect("the line of the state", b"state " + match[1], state.split(b"\n")[0])
    lines = plain.files["out.log"].decode().split("\n")[:-1]
    told_rows = [line for line in lines if int(line.split()[0]) < int(match[1])]
    expect("the rows of the state", told_rows, [line for _, _, line in kept])
    other = runner.run(["resume", "l.toml", "out"])
    check_end(other)
    same(f"resumed at {match[1].decode()}", plain, other)
    expect("the state is as before", state, other.files.get("out.state"))


def judge_views(runner, case, tree, rows, plain):
    """The log of a run by `meter` and `picture`, its lines by `probe` and `waves`, and both by `page`."""
    log, end = plain.files["out.log"], 2 * tree["until_bits"]
    runner.put({**case.files, "x.log": log})
    meter = runner.run(["meter", "x.log"])
    check_end(meter)
    expect("status of meter", 0, meter.status)
    expect("the figures", logs.figures(rows), meter.said.decode())
    begin, stop = end // 3, end // 3 + max(1, min(end // 2, 4000))
    picture = runner.run(["picture", "l.toml", "x.log", str(begin), str(stop)])
    check_end(picture)
    expect("status of picture", 0, picture.status)
    views.check_picture(log, rows, begin, stop, picture.said)
    stop = min(stop, end)
    page = runner.run(["page", "l.toml", str(begin), str(stop)])
    check_end(page)
    expect("status of page", 0, page.status)
    views.check_page(tree, log, begin, stop, page.said)
    taps = views.taps_of(tree)[:16]
    if taps:
        outcomes = [runner.run([form, "l.toml", str(begin), str(stop), *taps]) for form in ("probe", "waves")]
        for outcome in outcomes:
            check_end(outcome)
            expect("status of probe and waves", 0, outcome.status)
        views.check_probe(outcomes[0].said.decode(), outcomes[1].said.decode(), begin, stop, taps)


def judge_words(runner, case):
    """Words: a fault of words exactly where they are none of the forms; what they name is not there, or is a layout."""
    runner.put(case.files)
    outcome = runner.run([os.fsdecode(word) for word in case.words])
    check_end(outcome)
    wanted = forms.answer(case.words, case.files)
    if wanted is None:
        if outcome.status == 1:
            raise Wrong("words that are a form", repr(outcome.said))
    elif wanted[0] == 1 or not any(name.startswith("out.") for name in outcome.files):
        told(outcome, *wanted, case.files)


JUDGES = {"layout": judge_layout, "load": judge_layout, "log": judge_log, "state": judge_state, "runs": judge_runs,
          "words": judge_words}


def judge(runner, case):
    """Why the program is wrong on an input, or None."""
    try:
        JUDGES[case.kind](runner, case)
    except Wrong as wrong:
        return wrong
    except Excused as reason:
        case.excuses.append(str(reason))
    return None


def smaller(case, name, octets):
    return replace(case, files={**case.files, name: octets}, excuses=[])
