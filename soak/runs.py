"""What a run that ended with status 0 must have left: the log, the counters, the captures and the summary agree with
each other, with the layout and with the loads. It simulates nothing."""
import captures
import layouts
import logs

HEADER, JAM, GAP, LEAST = 128, 64, 192, 64
WRITTEN = captures.header()[:4] + b"\x02\x00\x04\x00"


class Wrong(Exception):
    """What was wanted, and what came."""

    def __init__(self, wanted, came, is_late=False):
        super().__init__(wanted, came)
        self.wanted, self.came, self.is_late = wanted, came, is_late


def expect(what, wanted, came):
    if wanted != came:
        raise Wrong(f"{what}: {wanted!r}", repr(came))


def padded(octets):
    return octets.ljust(60, b"\0")


def line_time(octets):
    """How many half bits a frame takes on the line, with its pad and check sequence."""
    return HEADER + 16 * (len(padded(octets)) + 4)


def time_of_jam(hit):
    """How many half bits a sending has that was hit: the bit, or the header, and the jam."""
    return max(HEADER, 2 * (hit // 2 + 1)) + JAM


def expected_files(tree):
    """The files of a run in the order in which they are written, by what follows the prefix."""
    return [".log", ".counters", *(f".{station['name']}.pcap" for station in tree.get("station", []))]


def taken_name(tree, words):
    """The first file that these words write that has the name of the layout or of a load, if there is one."""
    inputs = {words[1], *(station["load"] for station in tree.get("station", []) if "load" in station)}
    ends = [".state"] if words[0] == "stop" else expected_files(tree) if words[0] in ("plain", "run", "resume") else []
    return next((words[2] + end for end in ends if words[2] + end in inputs), None)


def check_order(tree, rows, end):
    """Rows never go back in time, and of one half bit they are in the order of the layout's devices."""
    place = {(False, s["name"]): n for n, s in enumerate(tree.get("station", []))}
    for number, repeater in enumerate(tree.get("repeater", [])):
        place[True, repeater["name"]] = len(tree.get("station", [])) + number
    before = (0, 0, 0, 0)
    for number, row in enumerate(rows, 1):
        if (row.repeater, row.name) not in place:
            raise Wrong(f"line {number} of the log: a device of the layout", row.name)
        late = row.what in ("received", "dropped") or row.what in ("closed", "opened")
        port = row.numbers.get("port", 0)
        now = (row.t, place[row.repeater, row.name], port, late)
        if now < before or row.t > end or (row.what == "cut") != (row.t == end):
            raise Wrong(f"line {number} of the log: in order, within the run", f"{row}")
        before = now


def check_sender(queue, rows, name):
    """A station's sendings: frames and attempts in turn, as long as they have to be, not before their time."""
    frame, attempt, free = 1, 1, -GAP
    for row in (row for row in rows if "frame" in row.numbers):
        told = row.numbers
        if told["frame"] > len(queue.frames):
            raise Wrong(f"{name} has {len(queue.frames)} frames", f"{row}")
        ready, octets = queue.frames[frame - 1]
        due = line_time(octets) if row.what == "sent" else time_of_jam(told.get("hit", 0))
        tries = told.get("attempt", 16)
        if (told["frame"], tries) != (frame, attempt) or told["start"] < max(ready, free + GAP):
            raise Wrong(f"{name}: frame {frame} attempt {attempt} at or after {max(ready, free + GAP)}", f"{row}")
        if row.what != "cut" and row.t - told["start"] != due:
            raise Wrong(f"{name}: a sending of {due} half bits", f"{row}")
        if row.what == "collided" and told["draw"] >= 2 ** min(attempt, 10):
            raise Wrong(f"{name}: a draw below 2 to the power of {min(attempt, 10)}", f"{row}")
        if row.what == "collided":
            attempt, free = attempt + 1, row.t + max(0, 1024 * told["draw"] - GAP)
        else:
            frame, attempt, free = frame + 1, 1, row.t


def check_capture(octets, rows, sent, name):
    """A capture has the frames of the rows `received`, each of which some other station had to send."""
    came = [row for row in rows if row.what == "received"]
    if octets[:8] != WRITTEN:
        raise Wrong(f"{name}: a capture with nanoseconds of version 2.4", repr(octets[:8]))
    try:
        records = captures.read(octets)
    except captures.Fault as fault:
        raise Wrong(f"{name}: a capture without a fault", fault.line(name)) from None
    told = [(50 * row.t, row.numbers["octets"] - 4) for row in came]
    expect(f"{name}: times and lengths of the capture", told, [(one.nanos, len(one.octets)) for one in records])
    for one in records:
        if one.octets not in sent or one.original != len(one.octets):
            raise Wrong(f"{name}: a frame that another station had to send", one.octets.hex())


def check(tree, loads, said, files, prefix="out"):
    """Raises Wrong where what is said and the files don't agree with each other, the layout and the loads."""
    queues = captures.queues(tree, loads)
    names = [prefix + name for name in expected_files(tree)]
    expect("the files", sorted(names), sorted(name for name in files if name.startswith(prefix + ".")
                                              and not name.endswith(".state")))
    try:
        rows = logs.read(files[prefix + ".log"])
    except logs.Fault as fault:
        raise Wrong("a log without a fault", str(fault)) from None
    end = 2 * tree["until_bits"]
    check_order(tree, rows, end)
    counters, sums = logs.counters_and_sums(tree, queues, rows)
    expect("the counters", counters, files[prefix + ".counters"].decode())
    expect("the summary", f"{layouts.verdict(tree)}\nhalf_bits {end}\n{sums}\n", said.decode())
    by_name = {}
    for row in rows:
        by_name.setdefault(row.name, []).append(row)
    stations = tree.get("station", [])
    for number, (station, queue) in enumerate(zip(stations, queues)):
        own = by_name.get(station["name"], [])
        check_sender(queue, own, station["name"])
        sent = {padded(octets) for n, other in enumerate(queues) if n != number for _, octets in other.frames}
        check_capture(files[f"{prefix}.{station['name']}.pcap"], own, sent, station["name"])
    return rows
