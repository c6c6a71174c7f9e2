"""The greatest files of stored cases, at the limits of docs/formats.md, and what must come of them, by rules of this file's
own, which know nothing of the program. A table calls a function by its name, as those of made_files.py."""
import zlib
from typing import Dict, List

from made_files import maker

FRAME = bytes.fromhex('ffffffffffff0200000000010800')
SEGMENTS, STATIONS, REPEATERS = 256, 1024, 128
LONGEST_LAYOUT, LONGEST_LOAD, LONGEST_RECORD = 1_048_576, 67_108_864, 262_144
SLOT_TIME, GAP = 1024, 192
CAPTURE_HEAD = bytes.fromhex('4d3cb2a10200040000000000000000000000040001000000')


# The greatest network: repeater k has its first port on segment g0 at 10 + k, and its others at 0 of two segments of their
# own, the last repeater of one. Four stations stand at 1 to 4 of each of these, and eight on the last.

def leaves() -> List[List[int]]:
    """For each segment but g0 the numbers of its stations, which stand at 1, 2, 3 .."""
    every = [list(range(4 * leaf, 4 * leaf + 4)) for leaf in range(SEGMENTS - 1)]
    every[-1] += range(4 * (SEGMENTS - 1), STATIONS)
    return every


def row(table: str, **values) -> str:
    """A row of a table of the layout file."""
    lines = [f'{key} = {value}' if isinstance(value, int) else f'{key} = "{value}"' for key, value in values.items()]
    return '\n'.join([f'[[{table}]]', *lines]) + '\n'


@maker
def greatest_network(until_bits: str, senders: str = '0') -> bytes:
    """1,024 stations, 256 segments and 128 repeaters; of the stations so many send, each at 37 times its number."""
    text = f'format = 1\nseed = 1\nuntil_bits = {until_bits}\n'
    text += ''.join(row('segment', name=f'g{g}') for g in range(SEGMENTS))
    for leaf, stations in enumerate(leaves(), 1):
        text += ''.join(row('station', name=f's{s}', segment=f'g{leaf}', at=at) for at, s in enumerate(stations, 1))
    for k in range(REPEATERS):
        text += row('repeater', name=f'r{k}', delay=1) + row('repeater.port', segment='g0', at=10 + k)
        text += ''.join(row('repeater.port', segment=f'g{leaf}', at=0)
                        for leaf in (2 * k + 1, 2 * k + 2) if leaf < SEGMENTS)
    every = STATIONS // max(int(senders), 1)
    return (text + ''.join(row('send', station=f's{s}', at=37 * s, octets=FRAME.hex())
                           for s in range(0, every * int(senders), every))).encode()


def farthest(leaf: int, stations: List[int]):
    """The most half bits from the last station of a segment to another one, and the first pair of stations that has it."""
    last, home = stations[-1], (leaf - 1) // 2
    others = [(3, 4, 0), (7, 4, 0), (STATIONS - 1, 8, REPEATERS - 1)]  # stations at both ends of g0, with place and repeater
    ways = [(len(stations) + 1 + abs(home - far) + 1 + at, sorted((last, other)))
            for other, at, far in others if far != home]
    most = max(way for way, _ in ways)
    return most, min(pair for way, pair in ways if way == most)


@maker
def greatest_slacks() -> bytes:
    """The verdict of the greatest network, and its slacks: of a gap, how much the longest way over it may still grow."""
    room = (SLOT_TIME - GAP) // 2 - 1
    most, pair = farthest(SEGMENTS - 1, leaves()[-1])
    names = f's{pair[0]} s{pair[1]}'
    text = f'within {2 * most + GAP} {names}\n'
    text += ''.join(f'segment g0 {10 + k} {11 + k} slack {room - most} pair {names}\n' for k in range(REPEATERS - 1))
    for leaf, stations in enumerate(leaves(), 1):
        way, pair = farthest(leaf, stations)
        text += ''.join(f'segment g{leaf} {at} {at + 1} slack {room - way} pair s{pair[0]} s{pair[1]}\n'
                        for at in range(len(stations)))
    return (text + ''.join(f'repeater r{k} 1 slack 199 bound\n' for k in range(REPEATERS))).encode()


@maker
def picture_head() -> bytes:
    """The front of a picture of the greatest network, up to its height: 1,800 units a lane and 3,200 more a segment."""
    lanes = STATIONS + REPEATERS + SEGMENTS - 1
    height = 9600 + 1800 * lanes + 3200 * SEGMENTS
    return ("<svg xmlns='http://www.w3.org/2000/svg' version='1.1' width='100%' "
            f"viewBox='-26000 0 133000 {height}'>\n").encode()


@maker
def longest_layout() -> bytes:
    """Two stations, and as many sends of the first as there is room for in a file of 1,048,576 octets."""
    text = 'format = 1\nseed = 1\nuntil_bits = 700\nsegment = [{name = "x"}]\nstation = [{name = "a", segment = "x", at = 0}, ' \
           '{name = "b", segment = "x", at = 10}]\nsend = [\n'
    send = f'{{station="a",at=0,octets="{FRAME.hex()}"}},'
    text += send * ((LONGEST_LAYOUT - len(text) - 2) // len(send)) + ']\n'
    return (text + '#' * (LONGEST_LAYOUT - len(text))).encode()


def record(nanoseconds: int, octets: bytes) -> bytes:
    numbers = (nanoseconds // 10 ** 9, nanoseconds % 10 ** 9, len(octets), len(octets))
    return b''.join(number.to_bytes(4, 'little') for number in numbers) + octets


@maker
def many_records(count: str) -> bytes:
    """A load of so many records of 14 octets, all of one time."""
    return CAPTURE_HEAD + record(0, FRAME) * int(count)


@maker
def longest_load() -> bytes:
    """A load of 67,108,864 octets: 255 records as long as may be, and one more; all are too long to be sent."""
    load = CAPTURE_HEAD + record(0, bytes(LONGEST_RECORD)) * 255
    return load + record(0, bytes(LONGEST_LOAD - len(load) - 16))


# A log of rows in the half bits 1, 2, 3 .. of two segments that a repeater joins: x with a at 0 and port 1 at 20, y with
# port 2 at 0 and b at 30. In turn a receives, b sends, the repeater jams, and its port 2 is closed.

def log_line(t: int) -> str:
    return (f'{t} station a received octets 64', f'{t} station b sent frame {(t + 3) // 4} start {t - 1} attempt 1',
            f'{t} repeater r clash', f'{t} repeater r closed port 2')[(t - 1) % 4]


@maker
def many_lines(count: str) -> bytes:
    return ''.join(log_line(t) + '\n' for t in range(1, int(count) + 1)).encode()


@maker
def many_names(count: str) -> bytes:
    """A log in which each of so many stations receives a frame, all in half bit 1."""
    return ''.join(f'1 station s{k} received octets 64\n' for k in range(int(count))).encode()


@maker
def figures_of_names(count: str) -> bytes:
    """Its figures, in the order of the names' octets."""
    names = sorted(f's{k}' for k in range(int(count)))
    return (f'rows {count} sending 0\n' + ''.join(
        f'station {name} sent 0 collided 0 given_up 0 cut 0 received 1 dropped 0 half_bits 0 share 0 longest 0\n'
        for name in names)).encode()


TABLE_HEAD = 'station,frame,octets,ready,first,start,end,attempts,outcome,reached,missed\n'


@maker
def table_of_lines(count: str) -> bytes:
    """The table of so many frames of b that are ready at once, by many_lines: their ends find port 2 closed, and a
    receives in no half bit in which one comes to it."""
    starts = ((k, 4 * k - 3) for k in range(1, int(count) + 1))
    return (TABLE_HEAD + ''.join(f'b,{k},64,0,{t},{t},{t + 1},1,sent,0,1\n' for k, t in starts)).encode()


@maker
def table_left(station: str, count: str) -> bytes:
    """The table of so many frames of a station that are ready at once, and weren't tried."""
    return (TABLE_HEAD + ''.join(f'{station},{k},64,0,,,,0,left,,\n' for k in range(1, int(count) + 1))).encode()


def way_from_first(station: int) -> int:
    """From s0, at 1 of g1, to another station of the greatest network: along g1, or by r0 to g2, or by r0, g0 and the
    repeater of its segment."""
    leaf, at = next((leaf, on.index(station) + 1) for leaf, on in enumerate(leaves(), 1) if station in on)
    repeater = (leaf - 1) // 2
    if leaf == 1:
        return at - 1
    return 1 + 1 + at if repeater == 0 else 1 + 1 + repeater + 1 + at


@maker
def heard_by_all() -> bytes:
    """The log of the frame that s0 sends in the greatest network, which each other station receives."""
    rows = sorted((1152 + way_from_first(s), s) for s in range(1, STATIONS))
    return ('1152 station s0 sent frame 1 start 0 attempt 1\n' + ''.join(
        f'{t} station s{s} received octets 64\n' for t, s in rows)).encode()


@maker
def table_of_greatest() -> bytes:
    """The table of a frame of each station, each ready at 37 times its number, of which that of s0 reached all others."""
    return (TABLE_HEAD + 's0,1,64,0,0,0,1152,1,sent,1023,0\n' + ''.join(
        f's{s},1,64,{37 * s},,,,0,left,,\n' for s in range(1, STATIONS))).encode()


def mark(t: int) -> str:
    """The mark of a line in a picture from half bit 1 on, in which a half bit is one unit wide: docs/formats.md says which
    shapes it has."""
    x = t - 1
    star = 'm0 -700l170 480h500l-400 300l150 490l-420 -290l-420 290l150 -490l-400 -300h500z'
    waves = ''.join(f"<polyline class='wave' points='{s + 30},18200 {s},20000 '/>" for s in (x - 1, x))
    shapes = (f"<path class='received' d='M{x} 11400m-380 0a380 380 0 1 0 760 0a380 380 0 1 0 -760 0z'/>",
              f"{waves}<path class='sent' d='M{x - 1} 20000m0 -450H{x}v900H{x - 1}z'/>",
              ''.join(f"<path class='clash' d='M{x} {y}{star}'/>" for y in (13200, 18200)),
              f"<path class='closed' d='M{x} 18200m-330 -330h660v660h-660z'/>")
    return f'<g><title>{log_line(t)}</title>{shapes[(t - 1) % 4]}</g>\n'


@maker
def many_marks(count: str) -> bytes:
    return ''.join(mark(t) for t in range(1, int(count) + 1)).encode() + b'</svg>\n'


# A state of many rows: in each tenth of them, or as said, b receives a frame, in the others it drops a fragment.

def state_row(t: int, every: int) -> str:
    return f'{t} station b ' + ('received octets 64' if t % every == 0 else 'dropped fragment halves 1')


@maker
def many_rows(count: str, every: str = '10') -> bytes:
    return ''.join(state_row(t, int(every)) + '\n' for t in range(1, int(count) + 1)).encode()


@maker
def long_state(count: str, every: str = '10') -> bytes:
    number, octets = int(count), 'octets ' + (FRAME + bytes(46)).hex() + '\n'
    text = f'state {number + 1}\n' + ''.join(
        f'station {name} phase rest defer watch attempt 1 place 0 drawn 0\n' for name in ('a', 'b'))
    text += ''.join('row ' + state_row(t, int(every)) + '\n' + (octets if t % int(every) == 0 else '')
                    for t in range(1, number + 1))
    return (text + 'end\n').encode()


@maker
def many_captured(count: str, every: str = '10') -> bytes:
    """The capture of b of a state of so many rows."""
    times = range(int(every), int(count) + 1, int(every))
    return CAPTURE_HEAD + b''.join(record(50 * t, FRAME + bytes(46)) for t in times)


# Frames one after another, each 192 half bits after the one before it, as a tap 10 half bits away hears them.

def line_text() -> List[str]:
    """The symbols of a frame: the preamble, the delimiter and the octets, from the least bit on; a bit 1 is lo, then hi."""
    octets = FRAME + bytes(46)
    octets = bytes([0x55] * 7 + [0xD5]) + octets + zlib.crc32(octets).to_bytes(4, 'little')
    bits = [octet >> place & 1 for octet in octets for place in range(8)]
    return [symbol for bit in bits for symbol in (('lo', 'hi') if bit else ('hi', 'lo'))]


def runs_of_frames(frames: int, end: int):
    """The runs that the tap hears, up to a half bit: where each begins, and its symbol."""
    text = line_text()
    changes = [p for p in range(len(text)) if p == 0 or text[p] != text[p - 1]]
    yield 0, 'idle'
    for k in range(frames):
        start = 10 + (len(text) + GAP) * k
        yield from ((start + p, text[p]) for p in changes)
        yield start + len(text), 'idle'
    yield end, ''


@maker
def probe_of_frames(frames: str, end: str) -> bytes:
    runs = list(runs_of_frames(int(frames), int(end)))
    text = 'tap b\n' + ''.join(f'{t} {later - t} {symbol}\n' for (t, symbol), (later, _) in zip(runs, runs[1:]))
    text += ''.join(f'burst {10 + 1344 * k} 1152 octets 64 spare 0\n' for k in range(int(frames)))
    return text.encode()


@maker
def waves_of_frames(frames: str, end: str) -> bytes:
    value = {'idle': 'z', 'hi': '1', 'lo': '0'}
    runs = list(runs_of_frames(int(frames), int(end)))
    text = f'$comment netsim: half bits 0 to {end}, of 50 ns each $end\n$timescale 1 ns $end\n$scope module net $end\n' \
           '$var wire 1 ! b $end\n$upscope $end\n$enddefinitions $end\n#0\n$dumpvars\nz!\n$end\n'
    text += ''.join(f'#{50 * t}\n{value[symbol]}!\n' for t, symbol in runs[1:-1])
    return (text + f'#{50 * runs[-1][0]}\n').encode()


@maker
def crowd_with_load(until_bits: str, stations: str = '64', frames: str = '1000') -> Dict[str, bytes]:
    """So many stations on one segment, the first of which has a load of so many frames."""
    text = f'format = 1\nseed = 1\nuntil_bits = {until_bits}\n' + row('segment', name='x')
    text += row('station', name='s0', segment='x', at=0, load='a.pcap')
    text += ''.join(row('station', name=f's{s}', segment='x', at=s) for s in range(1, int(stations)))
    return {'l.toml': text.encode(), 'a.pcap': many_records(frames)}


@maker
def rows_of_crowd(stations: str, frames: str) -> bytes:
    """The log of its run, in which each frame is sent 192 half bits after the one before it, and all others receive it."""
    return ''.join(f'{1344 * k + 1152} station s0 sent frame {k + 1} start {1344 * k} attempt 1\n' + ''.join(
        f'{1344 * k + 1152 + s} station s{s} received octets 64\n' for s in range(1, int(stations)))
        for k in range(int(frames))).encode()


@maker
def data_of_greatest() -> bytes:
    """The data lines of a page of the greatest network's first 40 half bits, with which its run ends: what s0 sends from
    half bit 0 on comes to port 2 of r0 in 1, leaves its other ports from 2 on, comes to port 1 of r1 in 3, and so on."""
    lines = ['window 0 40', 'run 40', *(f'segment g{g}' for g in range(SEGMENTS))]
    for leaf, stations in enumerate(leaves(), 1):
        lines += [f'station s{s} g{leaf} {at}' for at, s in enumerate(stations, 1)]
    for k in range(REPEATERS):
        lines += [f'repeater r{k} 1', f'port r{k} 1 g0 {10 + k}']
        lines += [f'port r{k} {p} g{leaf} 0' for p, leaf in ((2, 2 * k + 1), (3, 2 * k + 2)) if leaf < SEGMENTS]
    lines += ['signal s0 0 40 frame', 'signal r0:1 2 40 repeat 2', 'signal r0:3 2 40 repeat 2']
    lines += [f'signal r{k}:{p} {3 + k} 40 repeat 1' for k in range(1, 37) for p in (2, 3)]
    return ''.join(line + '\n' for line in [*lines, 'row 40 station s0 cut frame 1 start 0 attempt 1 hit none']).encode()


# One station at 10 of g0, on which five repeaters of delay 1 have their first ports at 0 to 4, and 31 others each.

@maker
def star_with_load(until_bits: str, frames: str) -> Dict[str, bytes]:
    """The star, whose station has a load of so many frames."""
    text = f'format = 1\nseed = 1\nuntil_bits = {until_bits}\n' + ''.join(row('segment', name=f'g{g}') for g in range(156))
    text += row('station', name='s', segment='g0', at=10, load='a.pcap')
    for k in range(5):
        text += row('repeater', name=f'r{k}', delay=1) + row('repeater.port', segment='g0', at=k)
        text += ''.join(row('repeater.port', segment=f'g{31 * k + p}', at=0) for p in range(1, 32))
    return {'l.toml': text.encode(), 'a.pcap': many_records(frames)}


@maker
def data_of_star(frames: str) -> bytes:
    """The data lines of a page of its whole run: each frame leaves 155 ports, one half bit after it came to the first of
    their repeater."""
    starts = [1344 * k for k in range(int(frames))]
    end = 1344 * len(starts)
    lines = [f'window 0 {end}', f'run {end}', *(f'segment g{g}' for g in range(156)), 'station s g0 10']
    for k in range(5):
        lines += [f'repeater r{k} 1', f'port r{k} 1 g0 {k}']
        lines += [f'port r{k} {p + 1} g{31 * k + p} 0' for p in range(1, 32)]
    lines += [f'signal s {t} {t + 1152} frame' for t in starts]
    lines += [f'signal r{k}:{p} {t + 11 - k} {t + 1163 - k} repeat 1' for k in range(5) for p in range(2, 33) for t in starts]
    lines += [f'row {t + 1152} station s sent frame {n} start {t} attempt 1' for n, t in enumerate(starts, 1)]
    return ''.join(line + '\n' for line in lines).encode()
