"""The command traffic: its words, its status, and what it writes where."""
import argparse
import os
import pathlib
import shutil
import signal
import sys

import loads
from asked import DEFAULTS, DELAY, MEAN_BURST, Fault, read

ABOUT = """Writes FOLDER: a layout, l.toml, and for each station NAME a load, NAME.pcap, drawn from a seed. FOLDER
mustn't be there. The status is 0 where all is written, 2 for a fault of the words, and 3 where FOLDER can't be written;
with 2 and 3 nothing is."""

HELP = {
    "stations": ("N", "how many stations there are, 1 to 1024"),
    "share": ("PART", "which part of the channel all frames ask for, with preambles and gaps: 0.6, 1.2"),
    "octets": ("LIST", "lengths with check sequences, 64 to 1518: 512, or 64,1518, or 64:7,576:4,1518:1 with weights"),
    "seconds": ("S", "how long the run is"),
    "seed": ("SEED", "what all is drawn from"),
    "arrivals": ("WAY", "when frames are ready: poisson, regular or bursts"),
    "burst": ("MEAN", f"how many frames a burst has in the mean, {MEAN_BURST} if nothing is said"),
    "weights": ("LIST", "a number for each station: how the share is split, evenly if nothing is said"),
    "topology": ("KIND", "segment, or repeater:N for N segments around a repeater"),
    "apart": ("H", "how many half bits of cable are between neighbours"),
    "delay": ("H", f"the half bits of the repeater's delay, {DELAY} if nothing is said"),
}


class Parser(argparse.ArgumentParser):
    def error(self, message):
        raise Fault(f"{message}; --help has all words")


def parse(words):
    parser = Parser(prog="traffic", description=ABOUT, allow_abbrev=False)
    for word, (metavar, text) in HELP.items():
        default = f" (else {DEFAULTS[word]})" if DEFAULTS[word] else ""
        parser.add_argument(f"--{word}", metavar=metavar, help=text + default)
    parser.add_argument("folder", metavar="FOLDER", type=pathlib.Path)
    given = vars(parser.parse_args(words))
    return given.pop("folder"), read(given)


def make(folder, asked):
    """Writes a folder, which is there whole or not at all."""
    if os.path.lexists(folder):
        raise Fault(f"{folder} is there already: name another folder, or remove it")
    part = folder.with_name(f"unfinished-{folder.name}-{os.getpid()}")
    part.mkdir()
    try:
        written = loads.write(part, asked)
        part.rename(folder)
    finally:
        shutil.rmtree(part, ignore_errors=True)
    return written


def run(words, out, errors):
    """Does what the words ask, and returns the status."""
    signal.signal(signal.SIGTERM, lambda number, frame: sys.exit(128 + number))
    try:
        folder, asked = parse(words)
        written = make(folder.absolute(), asked)
    except Fault as fault:
        print(f"traffic: {fault}", file=errors)
        return 2
    except OSError as error:
        print(f"traffic: {error.filename} can't be written: {error.strerror}", file=errors)
        return 3
    print(f"stations {asked.stations} frames {written.frames} share {float(written.share):.4f}", file=out)
    return 0
