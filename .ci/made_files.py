"""Files of stored cases that are too long to be written out: `file l.toml = segments(257)` calls `segments('257')`."""
import subprocess
import sys
from pathlib import Path

from slack_trials import small_net

MAKERS = {}
PAGE_MAKER = Path(__file__).resolve().parent.parent / 'page' / 'make'


def maker(function):
    """Makes a function one that a table may call by its name."""
    MAKERS[function.__name__] = function
    return function


HEAD = 'format = 1\nseed = 1\nuntil_bits = 101\n'


def segment(name: str) -> str:
    return f'[[segment]]\nname = "{name}"\n'


def tap(name: str, on: str, at: int) -> str:
    return f'[[station]]\nname = "{name}"\nsegment = "{on}"\nat = {at}\n'


def port(on: str, at: int) -> str:
    return f'[[repeater.port]]\nsegment = "{on}"\nat = {at}\n'


def repeater(name: str) -> str:
    return f'[[repeater]]\nname = "{name}"\ndelay = 1\n'


@maker
def station(name: str, on: str, at: str) -> bytes:
    """A row of a station on a segment, at a place."""
    return tap(name, on, int(at)).encode()


@maker
def send(name: str, at: str, octets: str = 'ffffffffffff0200000000010800') -> bytes:
    """A row by which a station sends a frame, of 14 octets unless others are named, from a half bit on."""
    return f'[[send]]\nstation = "{name}"\nat = {at}\noctets = "{octets}"\n'.encode()


@maker
def long_send(name: str) -> bytes:
    """A row by which a station sends a frame of 1,514 octets from the start on."""
    return send(name, '0', 'ffffffffffff0200000000010800' + '00' * 1500)


@maker
def hop_of(first: str, second: str, delay: str) -> bytes:
    """Segments x and y of so many half bits, joined by a repeater, with a at the one end and b at the other."""
    text = 'format = 1\nseed = 1\n' + segment('x') + segment('y')
    text += tap('a', 'x', 0) + tap('b', 'y', int(second))
    return (text + f'[[repeater]]\nname = "r"\ndelay = {delay}\n' + port('x', int(first)) + port('y', 0)).encode()


@maker
def segments(count: str) -> bytes:
    """So many segments: repeater k joins the first one to up to 31 others."""
    number = int(count)
    text = HEAD + ''.join(segment(f'x{k}') for k in range(number))
    for k, first in enumerate(range(1, number, 31)):
        text += repeater(f'r{k}') + port('x0', k)
        text += ''.join(port(f'x{j}', 0) for j in range(first, min(first + 31, number)))
    return text.encode()


@maker
def record(seconds: str, kept: str, of: str = '') -> bytes:
    """A record of a capture with the lowest octet of a number first, of zeros, of which so many octets were kept."""
    header = [int(seconds), 0, int(kept), int(of or kept)]
    return b''.join(number.to_bytes(4, 'little') for number in header) + bytes(int(kept))


@maker
def stations(count: str) -> bytes:
    """So many stations on one segment, one each half bit from 0 on."""
    return (HEAD + segment('x') + ''.join(tap(f's{k}', 'x', k) for k in range(int(count)))).encode()


@maker
def repeaters(count: str) -> bytes:
    """So many repeaters that join one segment to another each."""
    number = int(count)
    text = HEAD + ''.join(segment(f'x{k}') for k in range(number + 1))
    return (text + ''.join(repeater(f'r{k}') + port('x0', k) + port(f'x{k + 1}', 0) for k in range(number))).encode()


@maker
def ports(count: str) -> bytes:
    """One repeater r with so many ports, each on a segment of its own."""
    number = int(count)
    text = HEAD + ''.join(segment(f'x{k}') for k in range(number)) + repeater('r')
    return (text + ''.join(port(f'x{k}', 0) for k in range(number))).encode()


@maker
def guards(count: str) -> bytes:
    """The lines of a state for so many ports of the repeater r at rest."""
    rest = 'closed no mend no struck no in_row 0 clash_run 0 clean_run 0 rest 0'
    return ''.join(f'guard r port {k} {rest}\n' for k in range(1, int(count) + 1)).encode()


@maker
def small(number: str) -> bytes:
    """The layout of a small network, which slack_trials.py knows."""
    net = small_net(int(number))
    text = HEAD + ''.join(segment(name) for name in net.segments)
    text += ''.join(tap(name, at.segment, at.at) for name, at in net.stations)
    for joint in net.repeaters:
        text += f'[[repeater]]\nname = "{joint.name}"\ndelay = {joint.delay}\n'
        text += ''.join(port(at.segment, at.at) for at in joint.ports)
    return text.encode()


@maker
def small_slacks(number: str) -> bytes:
    """What `slack` has to print of it."""
    return small_net(int(number)).lines().encode()


def demo_frame(s: int, j: int) -> bytes:
    """Frame j of station s of demo."""
    head = bytes.fromhex('ffffffffffff02000000') + s.to_bytes(2, 'big') + bytes.fromhex('0800')
    return head + bytes((i + s + j) % 256 for i in range(14, 14 + (97 * s + 131 * j) % 1501))


def demo_load(s: int) -> bytes:
    """The frames of station s of demo as a capture in nanoseconds."""
    capture = bytes.fromhex('4d3cb2a1020004000000000000000000ffff000001000000')
    for j in range(20):
        seconds, nanos = divmod(50 * (37 * s + 20000 * j), 10**9)
        octets = demo_frame(s, j)
        capture += b''.join(n.to_bytes(4, 'little') for n in (seconds, nanos, len(octets), len(octets))) + octets
    return capture


@maker
def demo_files(number: str) -> dict:
    """The network of demo of a number, of which each station has its frames in a load."""
    n = int(number)
    text = f'format = 1\nseed = {n}\nuntil_bits = 200000\n' + ''.join(segment(f'g{k}') for k in range(n + 1))
    for s in range(4 * (n + 1)):
        text += tap(f's{s}', f'g{s // 4}', (10, 20, 30, 50)[s % 4]) + f'load = "s{s}.pcap"\n'
    for k in range(1, n + 1):
        text += f'[[repeater]]\nname = "r{k}"\ndelay = 28\n'
        text += port(f'g{(k - 1) // 2}', 40 if k % 2 else 60) + port(f'g{k}', 0)
    return {'l.toml': text.encode(), **{f's{s}.pcap': demo_load(s) for s in range(4 * (n + 1))}}


@maker
def page_part(name: str) -> bytes:
    """What stands in every page before its data lines, the head, or after them, the tail."""
    command = [sys.executable, str(PAGE_MAKER), 'none', '0', '1', '--part', name]
    return subprocess.run(command, capture_output=True, check=True).stdout
