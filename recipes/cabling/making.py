"""From the octets of a plan to its layout and report."""
import pathlib
import subprocess
import sys
import tempfile
import typing

import paths
import runs
from places import Layout, layout_text
from plan import Fault, read_plan
from report import greatest, report
from standard import text
from survey import Survey, broken_rules


class Wanting(Exception):
    """Something beside the plan that is wanting."""


class Made(typing.NamedTuple):
    layout: str
    distances: str
    report: str
    broken_count: int
    survey: Survey


def make(octets, with_distances=False):
    """All that is made of a plan; the table of distances, which takes long for a large one, where it is asked for."""
    plan = read_plan(octets)
    layout = Layout(plan)
    survey = Survey(plan, layout)
    written = layout_text(layout, greatest(layout, survey))
    verdict = check(plan, written)
    expected = verdict_of(survey)
    if verdict != expected:
        raise Wanting(f"{runs.PROGRAM} says '{verdict}' of the layout, and by the places it is '{expected}'")
    table = distances(plan, layout) if with_distances else ""
    broken = broken_rules(plan, survey)
    return Made(written, table, report(plan, layout, survey, verdict, broken), len(broken), survey)


def verdict_of(survey):
    """What netsim must say of the layout."""
    worst = survey.round_trip
    if worst.value is None:
        return "no pair"
    return " ".join(("within" if worst.value < runs.SLOT else "over", str(worst.value), *worst.names))


def check(plan, written):
    """The line that netsim prints of a layout. What it says of a fault is of the layout, and not of the plan."""
    try:
        runs.be_ready("check")
        with tempfile.TemporaryDirectory() as folder:
            pathlib.Path(folder, "l.toml").write_text(written, encoding="utf-8")
            done = subprocess.run([runs.PROGRAM, "check", "l.toml"], cwd=folder, stdin=subprocess.DEVNULL,
                                  stdout=subprocess.PIPE, stderr=subprocess.PIPE, text=True)
    except OSError as error:
        raise Wanting(f"{runs.PROGRAM} can't be run on the layout: {error.strerror}") from None
    said = done.stdout.strip()
    if done.returncode == 2:
        raise fault_of(plan, said)
    if done.returncode:
        sys.stderr.write(done.stderr)
        raise Wanting(f"{runs.PROGRAM} ended with status {done.returncode}: {said}")
    return said


def fault_of(plan, said):
    """The fault of a plan that netsim finds in its layout, in what is taken over as it is."""
    fields = said.split()
    table, number, key = fields[fields.index("table") + 1], int(fields[fields.index("row") + 1]), fields[-1]
    rows = {"segment": plan.segments, "station": [tap for tap, _ in plan.stations],
            "repeater": list(plan.repeaters.values())}
    if table in rows:
        line = rows[table][number - 1].line
    else:
        line = plan.lines.line(("send", number - 1) if table == "send" else (), key)
    here = f"the key {key}" if key != "-" else "a key"
    return Fault(line, f"netsim doesn't take {here} of this {table}: mend it by the table of faults in docs/formats.md "
                 f"({said})")


def distances(plan, layout):
    """A table of the ways between all stations, in nanoseconds."""
    rows = ["from,to,plan_ns,layout_ns,difference_ns\n"]
    for hops in paths.pairs(plan):
        way, true_way = 50 * layout.way(hops), 50 * layout.true_way(hops)
        names = hops[0].first.device, hops[-1].last.device
        rows.append(",".join((*names, text(true_way), str(way), text(way - true_way))) + "\n")
    return "".join(rows)


def write(files):
    """Writes files, each of which is there whole or not at all."""
    for path, content in files:
        part = path.with_name(f"{path.name}.new")
        try:
            part.write_text(content, encoding="utf-8")
            part.replace(path)
        except OSError as error:
            part.unlink(missing_ok=True)
            error.filename = str(path)
            raise
