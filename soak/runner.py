"""Starts the program cheaply, in the folder in which this process stands, and tells how it ended and what it left."""
import collections
import os
import resource
import shutil
import signal
import tempfile
import time
from dataclasses import dataclass

SECONDS = 10.0
MOST_KILOBYTES = 1 << 20
FOLDER = "a folder"  # what stands for the octets of a file where a folder has its name
LIBRARY_CALLS = ("memory", "open", "read", "write", "thread", "seek")


@dataclass
class Outcome:
    """How a run ended: its status, or None and the signal; what it said; the files of the folder after it."""

    status: int
    signal: int
    said: bytes
    files: dict
    seconds: float
    kilobytes: int
    late: bool = False

    def alike(self):
        return self.status, self.signal, self.said, self.files


def name_in(folder, name):
    """A name of a file that may be no text."""
    return os.path.join(os.fsencode(folder), name if isinstance(name, bytes) else name.encode())


class Runner:
    """A folder in memory, where there is one, and the program that is run in it."""

    def __init__(self, program, seconds=SECONDS, library=None):
        self.program, self.seconds, self.library = os.path.abspath(program), seconds, library
        shared = "/dev/shm" if os.access("/dev/shm", os.W_OK) else None
        self.home = tempfile.mkdtemp(prefix="soak-", dir=shared)
        self.folder = os.path.join(self.home, "in")
        self.aside = {name: os.path.join(self.home, name) for name in ("said", "errors", "counts")}
        os.mkdir(self.folder)
        os.chdir(self.folder)
        resource.setrlimit(resource.RLIMIT_AS, (12 << 30, resource.RLIM_INFINITY))
        resource.setrlimit(resource.RLIMIT_CORE, (0, 0))
        signal.signal(signal.SIGALRM, self.on_alarm)
        with open(self.program, "rb") as file:
            # A script around the program starts it with the library itself.
            self.preload = "SOAK_PRELOAD" if file.read(2) == b"#!" else "LD_PRELOAD"
        self.pid, self.signals, self.is_late, self.runs = 0, [], False, 0
        self.bases, self.kept, self.ends = {}, {}, collections.Counter()

    def close(self):
        os.chdir("/")
        shutil.rmtree(self.home, ignore_errors=True)

    def on_alarm(self, *_):
        """Sends the signal that was planned; the last one is for a run that takes too long."""
        if self.pid:
            number = self.signals.pop(0)
            self.is_late = not self.signals
            os.kill(self.pid, signal.SIGKILL if self.is_late else number)
            if not self.is_late:
                signal.setitimer(signal.ITIMER_REAL, self.seconds)

    def put(self, files):
        """Makes these the files of the folder, and no others."""
        with os.scandir(self.folder) as entries:
            for entry in entries:
                shutil.rmtree(entry.path) if entry.is_dir(follow_symlinks=False) else os.unlink(entry.path)
        for name, octets in files.items():
            if octets == FOLDER:
                os.mkdir(name_in(self.folder, name))
                continue
            with open(name_in(self.folder, name), "wb") as file:
                file.write(octets)

    def left(self):
        found = {}
        with os.scandir(self.folder) as entries:
            for entry in entries:
                if entry.is_dir():
                    found[entry.name] = FOLDER
                elif entry.is_file():
                    with open(entry.path, "rb") as file:
                        found[entry.name] = file.read()
        return found

    def environment(self, fault):
        names = {"PATH": "/usr/bin:/bin", "LC_ALL": "C"}
        if fault is not None:
            with open(self.aside["counts"], "wb") as file:
                file.write(bytes(8 * len(LIBRARY_CALLS)))
            names.update({self.preload: self.library, "SOAK_FAULT": fault, "SOAK_COUNTS": self.aside["counts"]})
        return names

    def counts(self):
        """How many calls of each kind the last run with the library made."""
        with open(self.aside["counts"], "rb") as file:
            octets = file.read()
        numbers = [int.from_bytes(octets[i : i + 8], "little") for i in range(0, len(octets), 8)]
        return dict(zip(LIBRARY_CALLS, numbers))

    def run(self, words, fault=None, kill=None, to=None):
        """Runs the program. `fault` is for the library; `kill` is a signal and after how many seconds it is sent; `to`
        is where the standard output goes instead."""
        writes = os.O_WRONLY | os.O_CREAT | os.O_TRUNC
        actions = [(os.POSIX_SPAWN_OPEN, 0, "/dev/null", os.O_RDONLY, 0),
                   (os.POSIX_SPAWN_OPEN, 1, to or self.aside["said"], writes, 0o600),
                   (os.POSIX_SPAWN_OPEN, 2, self.aside["errors"], writes, 0o600)]
        self.signals, self.is_late, self.runs = ([kill[0]] if kill else []) + [signal.SIGKILL], False, self.runs + 1
        open(self.aside["said"], "wb").close()
        begun = time.monotonic()
        self.pid = os.posix_spawn(self.program, [self.program, *words], self.environment(fault), file_actions=actions,
                                  setsigdef=[signal.SIGINT, signal.SIGTERM, signal.SIGPIPE, signal.SIGALRM])
        signal.setitimer(signal.ITIMER_REAL, max(kill[1], 1e-5) if kill else self.seconds)
        os.waitid(os.P_PID, self.pid, os.WEXITED | os.WNOWAIT)
        signal.setitimer(signal.ITIMER_REAL, 0)
        pid, self.pid = self.pid, 0
        _, code, usage = os.wait4(pid, 0)
        seconds = time.monotonic() - begun
        ended = os.WTERMSIG(code) if os.WIFSIGNALED(code) else 0
        with open(self.aside["said"], "rb") as file:
            said = file.read()
        status = None if ended else os.WEXITSTATUS(code)
        self.ends[f"signal {ended}" if ended else f"status {status}"] += 1
        return Outcome(status, ended, said, self.left(), seconds, usage.ru_maxrss, self.is_late)
