"""What the command of recipes/latency must say of a few lines that are worked by hand, and what it must refuse."""
import itertools
import os
import shutil

import frame_texts
from frame_texts import LAYOUT, LOADS, SENT, WITH_LOADS


def go_to(folder, files):
    """Makes a folder with these files alone the one that is worked in."""
    shutil.rmtree(folder, ignore_errors=True)
    folder.mkdir()
    for name, octets in files.items():
        (folder / name).write_bytes(octets.encode() if isinstance(octets, str) else octets)
    os.chdir(folder)


def tables():
    """Each input with a table: what is looked at, the files, the words, and the status and the text that must come."""
    words = ["l.toml", "x.log"]
    for what, layout, log, wanted in frame_texts.TABLES:
        yield what, {"l.toml": layout, "x.log": log}, words, (0, frame_texts.HEAD + wanted)
    yield ("loads, and the sends behind them", {"l.toml": WITH_LOADS, "x.log": "", **LOADS}, words,
           (0, frame_texts.HEAD + frame_texts.LOADED))
    for line in frame_texts.KNOWN:
        wanted = frame_texts.HEAD + frame_texts.LEFT_A + frame_texts.LEFT_B
        yield line, {"l.toml": LAYOUT, "x.log": line + "\n"}, words, (0, wanted)


def logs():
    """Each log that is refused."""
    words = ["l.toml", "x.log"]
    for line in frame_texts.STRANGE:
        yield line, {"l.toml": LAYOUT, "x.log": frame_texts.named(line)}, words, (11, "frames fault line 2\n")
    for line in frame_texts.BAD:
        yield repr(line), {"l.toml": LAYOUT, "x.log": frame_texts.named(line)}, words, (
            8, "log fault 2 BadLine line 2\n")
    yield "order", {"l.toml": LAYOUT, "x.log": frame_texts.named("9 repeater r clash")}, words, (
        8, "log fault 3 Order line 2\n")
    yield "no line feed", {"l.toml": LAYOUT, "x.log": SENT[:-1]}, words, (8, "log fault 2 BadLine line 1\n")
    yield "a fault behind a stranger", {"l.toml": LAYOUT, "x.log": "1 station c received octets 64\nend\n"}, words, (
        8, "log fault 2 BadLine line 2\n")


def files():
    """Words, layouts and loads that are refused, in the order in which they are judged."""
    for words in ([], ["l.toml"], ["l.toml", "x.log", "more"], ["", "x.log"], ["l.toml", "x" * 201],
                  ["l.toml", "\udcff"]):
        yield f"words {words}", {"l.toml": LAYOUT, "x.log": ""}, words, (1, "words fault\n")
    words, loaded = ["l.toml", "x.log"], {"l.toml": WITH_LOADS, **LOADS}
    yield "no layout", {}, words, (4, "read fault l.toml\n")
    yield "no log", loaded, words, (4, "read fault x.log\n")
    yield "no load, and no log", {"l.toml": WITH_LOADS, "a.pcap": LOADS["a.pcap"]}, words, (4, "read fault b.pcap\n")
    yield "a wrong load before no load", {"l.toml": WITH_LOADS, "a.pcap": b"\n\r\r\n" + bytes(24)}, words, (
        3, "capture fault 2 Magic station a record 0\n")
    for octets, line in ((23, "1 Short station b record 0"), (30, "6 CutRecord station b record 1"),
                         (len(LOADS["b.pcap"]) - 1, "6 CutRecord station b record 3")):
        cut = {**loaded, "b.pcap": LOADS["b.pcap"][:octets]}
        yield f"{octets} octets of a load", cut, words, (3, f"capture fault {line}\n")
    for place, octets, line in ((4, b"\3", "3 Version"), (20, b"\2", "4 LinkType")):
        other = LOADS["b.pcap"][:place] + octets + LOADS["b.pcap"][place + 1 :]
        yield line, {**loaded, "b.pcap": other}, words, (3, f"capture fault {line} station b record 0\n")
    long = frame_texts.capture((0, 60, 60)) + frame_texts.capture((0, 262_145, 262_145))[24:]
    yield "a long record", {**loaded, "b.pcap": long}, words, (3, "capture fault 5 Length station b record 2\n")
    for old, new in CHANGES:
        yield f"a layout with {new!r}", {"l.toml": LAYOUT.replace(old, new, 1)}, words, (2, "layout fault\n")


# What makes the layout break a rule.
CHANGES = [
    ("format = 1", "format = 3"), ("format = 1", "format = 1.0"), ("format = 1\n", ""), ("seed = 1", "seed = -1"),
    ("seed = 1", "color = 1"), ("until_bits = 2600", "until_bits = 0"), ('name = "y"', 'name = "x"'),
    ('name = "b"', 'name = "r"'), ('name = "b"', 'name = "b b"'), ("at = 30", "at = 0"), ("at = 30", "at = 2001"),
    ("at = 30", "at = true"), ('segment = "y"\nat = 30', 'segment = "z"\nat = 3'), ("delay = 16", "delay = 0"),
    ('segment = "y"\nat = 0', 'segment = "x"\nat = 1'), ('station = "b"', 'station = "c"'), ("0800", "08"),
    ("0800", "080"), ("0800", "08zz"), ("[[segment]]", "[[segment]"), ("at = 30", "at = 30\nlose_bits = 4"),
    ("at = 30", 'at = 30\nload = ""'), ('[[repeater.port]]\nsegment = "y"\nat = 0\n', ""),
    ('[[segment]]\nname = "y"', '[[segment]]\nname = "y"\n[[segment]]\nname = "z"'),
]


KINDS = {"tables by hand": tables, "logs by hand": logs, "files by hand": files}


def complaints(ask, folder, step=1):
    """What comes otherwise than it must, of each input or of one in so many, with the name of the check. `ask` gives
    the status and the text of words. Of a layout's fault the recipe prints less than the program, so its line is
    compared as far as it goes."""
    found = []
    for name, kind in KINDS.items():
        for what, written, words, (wanted_status, wanted) in itertools.islice(kind(), 0, None, step):
            go_to(folder, written)
            status, text = ask(words)
            text = text[: len(wanted) - 1] + "\n" if wanted_status == 2 else text
            if (status, text) != (wanted_status, wanted):
                found.append((name, f"{what}: got {status} {text!r}, not {wanted_status} {wanted!r}"))
    return found
