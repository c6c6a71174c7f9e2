"""Makes an input that is wrong as small as it can be, and keeps it with what was wanted and what came."""
import json
import os
import pathlib
import shlex
import time
import traceback
from dataclasses import replace

import faults  # noqa: F401  (it adds its judges)
from judges import Case, judge
from runner import FOLDER
from runs import Wrong

SECONDS = 60
HOME = pathlib.Path(__file__).resolve().parent


def judged(runner, case):
    """Why the program is wrong on an input, or None. What can't even be read is wrong, too."""
    try:
        return judge(runner, case)
    except Exception:
        return Wrong("files and lines that can be read", traceback.format_exc(limit=-3))


def still_wrong(runner, case):
    try:
        return judge(runner, case) is not None
    except Exception:
        return False


def cut_down(parts, join, is_wrong, deadline):
    """Fewer parts that are still wrong: leaves out ever smaller stretches."""
    stretch = len(parts)
    while stretch >= 1 and time.monotonic() < deadline:
        at, shrank = 0, False
        while at < len(parts) and time.monotonic() < deadline:
            fewer = parts[:at] + parts[at + stretch :]
            if is_wrong(join(fewer)):
                parts, shrank = fewer, True
            else:
                at += stretch
        if not shrank or stretch > 1:
            stretch //= 2
    return parts


def make_smaller(runner, case, seconds=SECONDS):
    """The input with fewer files, fewer lines and fewer octets, as far as it is wrong still."""
    deadline = time.monotonic() + seconds
    for name in sorted(case.files):
        fewer = {other: octets for other, octets in case.files.items() if other != name}
        if still_wrong(runner, replace(case, files=fewer, excuses=[])):
            case = replace(case, files=fewer, excuses=[])
    for name in sorted((name for name in case.files if case.files[name] != FOLDER),
                       key=lambda name: len(case.files[name]), reverse=True):
        def with_octets(octets):
            return replace(case, files={**case.files, name: octets}, excuses=[])

        def is_wrong(octets):
            return still_wrong(runner, with_octets(octets))

        lines = cut_down(case.files[name].splitlines(keepends=True), b"".join, is_wrong, deadline)
        case = with_octets(b"".join(lines))
        if len(case.files[name]) < 2000:
            octets = cut_down(list(case.files[name]), bytes, is_wrong, deadline)
            case = with_octets(bytes(octets))
    return case


AGAIN = """#!/usr/bin/env bash
# Runs this input again: again [PROGRAM]. It prints what is said, the status and the files; soak/run --again judges it.
set -u
here=$(cd "$(dirname "$0")" && pwd)
program=${{1:-{program}}}
work=$(mktemp -d) || exit 2
trap 'rm -rf "$work" "$work.so"' EXIT
cp -R "$here/files/." "$work"
cd "$work" || exit 2
{prepare}
{before}"$program" {words}
echo "status $?"
ls -l
"""


def again(runner, case):
    """The script that runs a kept input again."""
    prepare, before = ":", ""
    if case.fault is not None:
        source = shlex.quote(str(HOME / "faults.c"))
        prepare = f'cc -O1 -shared -fPIC -o "$work.so" {source} -ldl || exit 2'
        before = f'SOAK_FAULT={shlex.quote(case.fault)} LD_PRELOAD="$work.so" '
    if case.kill:
        before = f"timeout -s {case.kill[0]} {case.kill[1]:.6f} "
    words = " ".join(shlex.quote(os.fsdecode(word)) for word in case.words)
    return AGAIN.format(program=shlex.quote(runner.program), prepare=prepare, before=before, words=words)


def keep(folder, runner, case, seed, wrong, is_steady):
    """Writes a wrong input to a folder of its own."""
    home = pathlib.Path(folder) / "found" / f"{case.kind}-{seed}"
    (home / "files").mkdir(parents=True, exist_ok=True)
    for name, octets in case.files.items():
        path = home / "files" / name
        path.mkdir(exist_ok=True) if octets == FOLDER else path.write_bytes(octets)
    told = {"kind": case.kind, "words": [os.fsdecode(word) for word in case.words], "fault": case.fault,
            "kill": case.kill, "note": case.note, "seed": seed, "comes again": is_steady}
    (home / "case.json").write_text(json.dumps(told, indent=1) + "\n")
    (home / "words").write_bytes(b"".join(os.fsencode(word) + b"\n" for word in case.words))
    (home / "wanted").write_text(wrong.wanted + "\n")
    (home / "came").write_text(wrong.came + "\n")
    (home / "again").write_text(again(runner, case))
    (home / "again").chmod(0o755)
    return home


def kept(home):
    """The input that was kept in a folder."""
    home = pathlib.Path(home)
    told = json.loads((home / "case.json").read_text())
    files = {path.name: FOLDER if path.is_dir() else path.read_bytes() for path in (home / "files").iterdir()}
    words = [os.fsencode(word) for word in told["words"]] if told["kind"] == "words" else told["words"]
    return Case(told["kind"], files, words, told["fault"], told["kill"] and tuple(told["kill"]), told["note"])
