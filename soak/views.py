"""What `slack`, `probe`, `waves`, `picture` and `page` print has the form of docs/formats.md and is of its run."""
import pathlib
import re
import runpy
import xml.etree.ElementTree

from runs import Wrong, expect

TOP = pathlib.Path(__file__).resolve().parent.parent
SLACK = re.compile(r"(?:segment (\S+) (\d+) (\d+)|repeater (\S+) (\d+)) (?:over|slack \d+ (?:bound|pair (\S+) (\S+)))")
VALUES = {"idle": "z", "hi": "1", "lo": "0", "clash": "x"}


def check_slacks(tree, lines):
    """A line for each gap between neighbouring taps and for each repeater, in order."""
    expect("the end of the last line", "", lines[-1])
    taps = {row["name"]: [] for row in tree["segment"]}
    for row in [*tree.get("station", []), *(p for r in tree.get("repeater", []) for p in r["port"])]:
        taps[row["segment"]].append(row["at"])
    wanted = [(name, str(low), str(high), None, None) for name, places in taps.items()
              for low, high in zip(sorted(places), sorted(places)[1:])]
    wanted += [(None, None, None, row["name"], str(row["delay"])) for row in tree.get("repeater", [])]
    matches = [SLACK.fullmatch(line) for line in lines[:-1]]
    if None in matches:
        raise Wrong("a line of slacks", lines[matches.index(None)])
    expect("the gaps and repeaters", wanted, [match.groups()[:5] for match in matches])


def first_stranger(tree, rows):
    """The first line of a log that names what the layout lacks, from 1; 0 where there is none."""
    stations = {row["name"] for row in tree.get("station", [])}
    ports = {row["name"]: len(row["port"]) for row in tree.get("repeater", [])}
    for number, row in enumerate(rows, 1):
        if row.name not in (ports if row.repeater else stations):
            return number
        if "port" in row.numbers and not 1 <= row.numbers["port"] <= ports[row.name]:
            return number
    return 0


def check_picture(log, rows, begin, end, said):
    """A document of XML whose titles are the lines that meet the half bits."""
    try:
        root = xml.etree.ElementTree.fromstring(said.decode())
    except (xml.etree.ElementTree.ParseError, UnicodeDecodeError) as error:
        raise Wrong("a document of XML", str(error)) from None
    wanted = []
    for row, line in zip(rows, log.decode().split("\n")):
        start = row.numbers.get("start")
        if (start < end and row.t >= begin) if start is not None else begin <= row.t < end:
            wanted.append(line)
    expect("the titles", wanted, [title.text for title in root.iter("{http://www.w3.org/2000/svg}title")])


def check_page(tree, log, begin, end, said):
    """The page that page/make makes, which steps the repeaters by itself."""
    maker = runpy.run_path(str(TOP / "page" / "make"))
    head, tail = maker["head_and_tail"]()
    data = "".join(f"{line}\n" for line in maker["data_lines"](tree, log.decode().splitlines(), begin, end))
    expect("the page", head + data + tail, said.decode())


def taps_of(tree):
    taps = [row["name"] for row in tree.get("station", [])]
    return taps + [f"{row['name']}:{p}" for row in tree.get("repeater", []) for p in range(1, len(row["port"]) + 1)]


def runs_of_probe(text, begin, end, taps):
    """Each tap's runs as (first half bit, value); they follow each other without a gap."""
    lines, found = text.split("\n"), []
    expect("the end of the last line of probe", "", lines.pop())
    for line in lines:
        words = line.split(" ")
        if words[0] == "tap":
            found.append([])
            expect("the tap", taps[len(found) - 1], words[1])
            due = begin
        elif re.fullmatch(r"burst \d+ \d+ (?:octets \d+ spare [0-7]|spoiled)", line):
            expect("the runs before a burst end", end, due)
        elif re.fullmatch(r"\d+ [1-9]\d* (?:idle|hi|lo|clash)", line):
            value = VALUES[words[2]]
            if int(words[0]) != due or (found[-1] and found[-1][-1][1] == value):
                raise Wrong(f"a run of another symbol at {due}", line)
            found[-1].append((due, value))
            due += int(words[1])
        else:
            raise Wrong("a line of probe", line)
    expect("the number of taps", len(taps), len(found))
    return found


def runs_of_waves(text, begin, end, taps):
    """The same of a value change dump."""
    lines = text.split("\n")
    expect("the end of the last line of waves", "", lines.pop())
    heads = [line.split(" ") for line in lines if line.startswith("$var")]
    expect("the variables", taps, [words[4] for words in heads])
    codes = {words[3]: number for number, words in enumerate(heads)}
    found, now = [[] for _ in taps], None
    for line in lines[lines.index("$enddefinitions $end") + 1 :]:
        if line.startswith("#"):
            if int(line[1:]) % 50 or (now is not None and int(line[1:]) // 50 <= now):
                raise Wrong("a later time in steps of 50 ns", line)
            now = int(line[1:]) // 50
        elif line[0] in "z10x" and line[1:] in codes:
            found[codes[line[1:]]].append((now, line[0]))
        elif line not in ("$dumpvars", "$end"):
            raise Wrong("a line of a dump", line)
    expect("the last time", end, now)
    return found


def check_probe(probe, waves, begin, end, taps):
    """Both tell the same of each tap."""
    expect("the runs by waves", runs_of_probe(probe, begin, end, taps), runs_of_waves(waves, begin, end, taps))
