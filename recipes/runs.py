"""What the recipes in Python share: runs of netsim, each in a folder of its own.

A run works in FOLDER/unfinished-NAME, which gets the name FOLDER/NAME in one step after status 0; only that counts as
finished. A recipe that is called again names what was cut off or failed, and runs that again; what is finished isn't
run again. The program is the one that the variable NETSIM names, or ../netsim, or else netsim on the PATH."""
import concurrent.futures
import fcntl
import functools
import os
import pathlib
import shutil
import signal
import struct
import subprocess
import sys
import tempfile
import typing

BUILT = pathlib.Path(__file__).resolve().parent.parent / "netsim"
PROGRAM = os.path.abspath(os.environ.get("NETSIM") or (not BUILT.exists() and shutil.which("netsim")) or BUILT)

# Numbers of the standard, in half bits.
SLOT, GAP, PREAMBLE, OCTET = 1024, 192, 128, 16


class Run(typing.NamedTuple):
    """A run: what its folder is called, what writes l.toml and its loads there, and from which half bit on the lines
    of its log are metered; then files that are made in its folder while its loads are there, each with the words of the
    command that prints it."""

    name: str
    write: typing.Callable[[pathlib.Path], None]
    since: int = 0
    prints: typing.Mapping[str, tuple] = {}


def write_load(path, octets, records):
    """A capture of so many frames, all due at once, of so many octets with the check sequence, which it hasn't."""
    frame = bytes.fromhex("ffffffffffff" "020000000001" "0800").ljust(octets - 4, b"\0")
    header = struct.pack("<IHHiIII", 0xA1B2C3D4, 2, 4, 0, 0, 262144, 1)
    path.write_bytes(header + records * (struct.pack("<IIII", 0, 0, len(frame), len(frame)) + frame))


def figures(folder, name):
    """Of a finished run by station what `netsim meter` counted."""
    rows = [line.split() for line in (folder / name / "figures").read_text().splitlines()]
    return {row[1]: {word: int(count) for word, count in zip(row[2::2], row[3::2])} for row in rows if row[0] == "station"}


@functools.cache
def be_ready(form):
    """Judges a layout by `check` or `slack`. Where the program has to be built, it is built here, once, and shows how far
    it is: for `check` the one that has the forms check and plain, for `slack` the one that has all."""
    with tempfile.NamedTemporaryFile("w", suffix=".toml") as layout:
        layout.write('format = 1\nseed = 1\nuntil_bits = 1\n[[segment]]\nname = "x"\n')
        layout.flush()
        if subprocess.run([PROGRAM, form, layout.name], stdout=subprocess.DEVNULL).returncode != 0:
            sys.exit(f"{PROGRAM} doesn't run")


def finish(runs, folder, jobs):
    """Does the runs that aren't finished, so many at a time. Ends the recipe where one of them fails."""
    folder.mkdir(parents=True, exist_ok=True)
    lock = open(folder / "lock", "w")
    try:
        fcntl.flock(lock, fcntl.LOCK_EX | fcntl.LOCK_NB)
    except OSError:
        sys.exit(f"another recipe is at work in {folder}")
    be_ready("slack")
    clear(folder)
    todo = [run for run in runs if not (folder / run.name).exists()]
    signal.signal(signal.SIGTERM, lambda number, frame: sys.exit(128 + number))
    pool = concurrent.futures.ThreadPoolExecutor(jobs)
    try:
        done = list(pool.map(lambda run: do(run, folder), todo))
    except BaseException:
        pool.shutdown(wait=False, cancel_futures=True)
        for process in list(working):
            process.kill()
        raise
    failed = [run.name for run, is_done in zip(todo, done) if not is_done]
    if failed:
        sys.exit(f"not finished: {' '.join(failed)}")
    return lock


def clear(folder):
    """Names what an earlier call left unfinished, and removes it."""
    for part in sorted(folder.glob("unfinished-*")):
        status = part / "status"
        why = f"ended with {status.read_text().strip()}" if status.exists() else "cut off"
        print(f"{part.name.removeprefix('unfinished-')}: {why}, runs again", file=sys.stderr)
        shutil.rmtree(part)


working = set()


def call(folder, said, *words):
    """The status of a command; what it prints goes to a file."""
    with open(folder / said, "wb") as out, open(folder / "errors", "ab") as errors:
        process = subprocess.Popen(words, cwd=folder, stdin=subprocess.DEVNULL, stdout=out, stderr=errors)
        working.add(process)
        status = process.wait()
        working.discard(process)
        return status


def do(run, folder):
    """Does a run. Returns whether it is finished."""
    part = folder / f"unfinished-{run.name}"
    part.mkdir()
    run.write(part)
    said, status = "summary", call(part, "summary", PROGRAM, "run", "l.toml", "out", "1")
    if status == 0:
        log = later_lines(part / "out.log", run.since).name
        said, status = "figures", call(part, "figures", PROGRAM, "meter", log)
    for file, words_of_command in run.prints.items():
        if status == 0:
            said, status = file, call(part, file, *words_of_command)
    if status:
        ending = f"status {status}" if status > 0 else f"signal {-status}"
        (part / "status").write_text(f"{ending}\n")
        first = (part / said).read_text().partition("\n")[0]
        print(f"{run.name}: {ending}: {first}", file=sys.stderr)
        return False
    for capture in part.glob("*.pcap"):
        capture.unlink()
    part.rename(folder / run.name)
    return True


def later_lines(log, since):
    """A log without the lines that are before a half bit."""
    if since == 0:
        return log
    later = log.with_name("later.log")
    with open(log, "rb") as old, open(later, "wb") as new:
        for line in old:
            if int(line[: line.index(b" ")]) >= since:
                new.write(line)
                shutil.copyfileobj(old, new)
    return later


def words(sizes, usage):
    """The words of a recipe, SIZE [FOLDER [JOBS]]: the size, the folder, or out/ beside the recipe, and how many runs
    are done at a time, or else as many as there are processors."""
    size = sys.argv[1] if len(sys.argv) > 1 else ""
    if size not in sizes or len(sys.argv) > 4:
        sys.exit(usage)
    beside = pathlib.Path(sys.argv[0]).resolve().parent / "out"
    out = pathlib.Path(sys.argv[2]).resolve() if len(sys.argv) > 2 else beside
    jobs = int(sys.argv[3]) if len(sys.argv) > 3 else len(os.sched_getaffinity(0))
    return size, out, jobs


def write_table(path, rows):
    """Writes the rows of a table, which is there whole or not at all."""
    part = path.with_suffix(".new")
    part.write_text("".join(",".join(map(str, row)) + "\n" for row in rows))
    part.replace(path)
    print(path)


def plot(script, lengths, out):
    """Draws the plot of a recipe, where gnuplot is there."""
    if shutil.which("gnuplot"):
        subprocess.run(["gnuplot", "-e", f"lengths='{' '.join(map(str, lengths))}'", script], cwd=out, check=True)
        print(out / script.with_suffix(".svg").name)
    else:
        print("gnuplot: not there, no plot")
