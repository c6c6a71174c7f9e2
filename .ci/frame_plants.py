"""Wrong readings that are planted, one after another, into a copy of recipes/latency: each is an edit of its code
at one place, and each must be found by one of the checks of .ci/frames."""
import shutil
import typing

from frame_cases import TOP, isolated


class Plant(typing.NamedTuple):
    """What is read wrongly, the module, its text, which it has once, and the text in its place."""

    what: str
    module: str
    old: str
    new: str


PLANTS = [Plant(*plant) for plant in (
    ("the sender is counted as missed", "ways", "if station is not sender:", "if True:"),
    ("octets aren't compared", "frames_table", "received = told.received.get(octets, set())",
     "received = set().union(*told.received.values())"),
    ("the half bit isn't compared", "frames_table", "(station, end + gone) in received",
     "any(station == name for name, _ in received)"),
    ("a repeater's delay is left out", "ways", "here + repeater.delay", "here"),
    ("cable behind a repeater is left out", "ways", "gone + abs(station.tap.at - tap.at)",
     "gone + (0 if last else abs(station.tap.at - tap.at))"),
    ("cable up to a repeater is left out", "ways", "gone + abs(port.at - tap.at)", "gone"),
    ("ready isn't raised to the predecessor's", "load_file", "ready = max(ready, one.ready)", "ready = one.ready"),
    ("half bit 0 looks at no skipped record", "load_file", "for record in found), default=0)",
     "for record in found if is_sent(record, layout.longest)), default=0)"),
    ("half bit 0 is each load's own", "load_file", "(record.nanoseconds - least)",
     "(record.nanoseconds - min(one.nanoseconds for one in found))"),
    ("sends come before the load", "load_file", "frames[send.station].append(frame(send.at, send.octets))",
     "frames[send.station].insert(0, frame(send.at, send.octets))"),
    ("the pad isn't counted", "load_file", "max(octets, PADDED)", "octets"),
    ("the check sequence isn't counted", "load_file", "+ CHECK_SEQUENCE", ""),
    ("snapped records are sent", "load_file", "record.octets >= record.original and ", ""),
    ("long records are sent", "load_file", "SHORTEST <= record.octets <= longest", "SHORTEST <= record.octets"),
    ("short records are sent", "load_file", "SHORTEST <= record.octets <= longest", "record.octets <= longest"),
    ("the unit of a fraction is left out", "load_file", "fraction * unit", "fraction"),
    ("the first attempt is the last one", "frames_table", "self.start = row.numbers[1]",
     "self.first = self.start = row.numbers[1]"),
    ("start is that of the first attempt", "frames_table", "self.start = row.numbers[1]", "pass"),
    ("a sending that was cut is no attempt", "frames_table", "self.attempts += 1",
     'self.attempts += row.what != "cut"'),
    ("a frame that was given up is left", "frames_table", 'if row.what != "collided":',
     'if row.what not in ("collided", "given_up"):'),
    ("a collision is an end", "frames_table", 'if row.what != "collided":', "if True:"),
    ("a closed port is open", "frames_table", "return before == 0 or", "return True or"),
    ("a row of a port bears on its own half bit", "frames_table", "bisect.bisect_left(changes, (at,))",
     "bisect.bisect_left(changes, (at + 1,))"),
    ("a port that was ever closed stays so", "frames_table", 'changes[before - 1][1] == "opened"', "False"),
    ("a halted port is closed", "frames_table", '("closed", "opened")', '("closed", "opened", "halted")'),
    ("ports are looked at when the frame leaves", "frames_table", "self.is_open(repeater, port, end + gone)",
     "self.is_open(repeater, port, end)"),
    ("the port by which it leaves a repeater is looked at", "ways",
     "through = entered + ((repeater.name, number, here),)",
     "through = entered + tuple((repeater.name, one, here) for one in range(1, len(repeater.ports) + 1))"),
    ("the run has half a half bit more", "frames_table", "end + gone < half_bits",
     "end + gone <= half_bits"),
    ("what the run ends before is missed", "frames_table", "elif end + gone < half_bits:", "else:"),
    ("bits are taken for half bits", "layout_file", '2 * tree["until_bits"]', 'tree["until_bits"]'),
    ("frames are counted from 0", "frames_table", "enumerate(queues[station.name], 1)",
     "enumerate(queues[station.name])"),
    ("a frame 0 is there", "log_file", "1 <= row.numbers[0] <= len(frames)", "row.numbers[0] <= len(frames)"),
    ("a frame beyond the queue is there", "log_file", "1 <= row.numbers[0] <= len(frames)", "1 <= row.numbers[0]"),
    ("a port beyond the last is there", "log_file", "1 <= row.numbers[0] <= ports", "1 <= row.numbers[0]"),
    ("lines are counted from 0", "log_file", "enumerate(rows(octets), 1)", "enumerate(rows(octets))"),
    ("a stranger comes before a fault of the log", "log_file", "            stranger = number",
     '            raise Refusal(11, f"frames fault line {number}")'),
    ("a log may go back in time", "log_file", "if row.at < before:", "if False:"),
    ("format 2 has no longer frames", "layout_file", "2: 1518", "2: 1514"),
    ("the version of a load isn't looked at", "load_file",
     'struct.unpack_from(order + "HH", octets, 4) == (2, 4)', "True"),
    ("two taps may share a place", "layout_file", "len(set(taps)) == len(taps)", "True"),
    ("the log is read before the loads", "command", "    queues = load_file.queues(layout)",
     "    read_file(log_name, 0)\n    queues = load_file.queues(layout)"),
)]


def planted(plant, folder):
    """The command with a wrong reading."""
    source = TOP / "recipes/latency"
    shutil.rmtree(folder, ignore_errors=True)
    folder.mkdir()
    for path in source.glob("*.py"):
        shutil.copy(path, folder)
    module = folder / f"{plant.module}.py"
    text = module.read_text()
    if text.count(plant.old) != 1:
        raise ValueError(f"{plant.what}: {module.name} has its text {text.count(plant.old)} times")
    module.write_text(text.replace(plant.old, plant.new))
    return isolated([folder], "command")
