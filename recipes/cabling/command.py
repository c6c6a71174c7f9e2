"""The command cabling: its words, its status, and what it writes where."""
import argparse
import pathlib

import making
from plan import Fault

ABOUT = """Holds a network in metres of cable against IEEE 802.3 and makes a layout of it. The report goes to standard
output. The status is 0 where all rules hold, 1 where one is broken, 2 for a fault of the words or of the plan, and 3
where something else is wanting: Python 3.11, netsim, or a file that can't be written. The program is netsim of the
repository, or the one that the variable NETSIM names."""


def parse(words):
    parser = argparse.ArgumentParser(prog="cabling", description=ABOUT)
    parser.add_argument("plan", metavar="PLAN", type=pathlib.Path, help="the network, a TOML file")
    parser.add_argument("-o", dest="layout", metavar="LAYOUT", type=pathlib.Path, help="where the layout goes")
    parser.add_argument("-d", dest="distances", metavar="DISTANCES", type=pathlib.Path,
                        help="where a table of the ways between all stations goes")
    asked = parser.parse_args(words)
    named = [path.resolve() for path in (asked.plan, asked.layout, asked.distances) if path]
    if len(set(named)) < len(named):
        parser.error("PLAN, LAYOUT and DISTANCES are different files: give each a name of its own")
    return asked


def run(words, out, errors):
    """Does what the words ask, and returns the status. Nothing is written with 2."""
    asked = parse(words)
    try:
        octets = asked.plan.read_bytes()
    except OSError as error:
        print(f"{asked.plan}: it can't be read: {error.strerror}; give the path of a plan", file=errors)
        return 2
    try:
        made = making.make(octets, asked.distances is not None)
    except Fault as fault:
        place = f"{asked.plan}:{fault.line}" if fault.line else f"{asked.plan}"
        print(f"{place}: {fault}", file=errors)
        return 2
    except making.Wanting as wanting:
        print(f"cabling: {wanting}", file=errors)
        return 3
    try:
        making.write([(path, text) for path, text in ((asked.layout, made.layout), (asked.distances, made.distances))
                      if path])
    except OSError as error:
        print(f"cabling: {error.filename} can't be written: {error.strerror}", file=errors)
        return 3
    print(made.report, end="", file=out)
    return 1 if made.broken_count else 0
