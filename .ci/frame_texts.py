"""Layouts, loads and logs of a few lines with the table that they must give, or the refusal, worked by hand from
docs/formats.md. Rows are as no run need leave them."""
import struct

HEAD = "station,frame,octets,ready,first,start,end,attempts,outcome,reached,missed\n"

# Stations a on x and b on y. From b it is 30 half bits to port 2 of r, and 66 to a; from a 20 to port 1, 66 to b.
LAYOUT = """format = 1
seed = 1
until_bits = 2600
[[segment]]
name = "x"
[[segment]]
name = "y"
[[station]]
name = "a"
segment = "x"
at = 0
[[station]]
name = "b"
segment = "y"
at = 30
[[repeater]]
name = "r"
delay = 16
[[repeater.port]]
segment = "x"
at = 20
[[repeater.port]]
segment = "y"
at = 0
[[send]]
station = "a"
at = 0
octets = "ffffffffffff0200000000010800"
[[send]]
station = "b"
at = 65
octets = "ffffffffffff0200000000020800"
"""
LEFT_A, LEFT_B = "a,1,64,0,,,,0,left,,\n", "b,1,64,65,,,,0,left,,\n"
SENT = "1677 station b sent frame 1 start 525 attempt 2\n"
CAME = "1743 station a received octets 64\n"


def b_sent(reached, missed):
    return LEFT_A + f"b,1,64,65,525,525,1677,1,sent,{reached},{missed}\n"


def closed(*rows):
    """The log with b's frame and rows of r's ports, as 1706 closed 2."""
    ports = [f"{at} repeater r {what} port {port}\n" for at, what, port in rows]
    return "".join(sorted([SENT, CAME, *ports], key=lambda line: int(line.split()[0])))


def until(bits):
    return LAYOUT.replace("until_bits = 2600", f"until_bits = {bits}")


# What is looked at, the layout, the log, and the table without its head.
TABLES = [
    ("an empty log", LAYOUT, "", LEFT_A + LEFT_B),
    ("a frame that comes", LAYOUT, SENT + CAME, b_sent(1, 0)),
    ("a frame that nobody received", LAYOUT, SENT, b_sent(0, 1)),
    ("another length", LAYOUT, SENT + CAME.replace("64", "65"), b_sent(0, 1)),
    ("another half bit", LAYOUT, SENT + CAME.replace("1743", "1742"), b_sent(0, 1)),
    ("the sender's own row", LAYOUT, SENT + "1743 station b received octets 64\n", b_sent(0, 1)),
    ("a row that stands twice", LAYOUT, SENT + CAME + CAME, b_sent(1, 0)),
    ("closed before the end comes", LAYOUT, closed((1706, "closed", 2)), b_sent(0, 1)),
    ("closed in the half bit of the end", LAYOUT, closed((1707, "closed", 2)), b_sent(1, 0)),
    ("opened before the end comes", LAYOUT, closed((1600, "closed", 2), (1706, "opened", 2)), b_sent(1, 0)),
    ("opened in the half bit of the end", LAYOUT, closed((1600, "closed", 2), (1707, "opened", 2)), b_sent(0, 1)),
    ("closed behind the end", LAYOUT, closed((1720, "closed", 2)), b_sent(1, 0)),
    ("the port by which it leaves is closed", LAYOUT, closed((100, "closed", 1)), b_sent(1, 0)),
    ("a halted port is open", LAYOUT, closed((100, "halted", 2)), b_sent(1, 0)),
    ("the run ends before it comes", until(871), SENT, b_sent(0, 0)),
    ("the run ends just behind it", until(872), SENT, b_sent(0, 1)),
    ("the run ends just as it comes", until(872), SENT.replace("1677", "1678"),
     b_sent(0, 0).replace("1677", "1678")),
    ("a row beyond the run", until(871), SENT + CAME, b_sent(1, 0)),
    ("a collision alone", LAYOUT, "257 station b collided frame 1 start 65 attempt 1 hit 1 draw 0\n",
     LEFT_A + "b,1,64,65,65,65,,1,left,,\n"),
    ("given up", LAYOUT, "257 station b collided frame 1 start 65 attempt 15 hit 1 draw 0\n"
     "717 station b given_up frame 1 start 525 hit 1\n", LEFT_A + "b,1,64,65,65,525,717,2,given_up,,\n"),
    ("cut", until(300), "257 station b collided frame 1 start 65 attempt 1 hit 1 draw 0\n"
     "600 station b cut frame 1 start 525 attempt 2 hit none\n", LEFT_A + "b,1,64,65,65,525,600,2,cut,,\n"),
    ("two ends", LAYOUT, "600 station b cut frame 1 start 70 attempt 1 hit 3\n" + SENT + CAME,
     LEFT_A + "b,1,64,65,70,525,1677,2,sent,1,0\n"),
    ("a collision behind the end", LAYOUT, SENT + CAME + "1943 station b collided frame 1 start 1750 attempt 1 hit 1 "
     "draw 0\n", LEFT_A + "b,1,64,65,525,1750,1677,2,sent,1,0\n"),
]


def capture(*records, magic=0xA1B23C4D):
    """A capture of records, each of nanoseconds, octets and the original length of the frame."""
    made = struct.pack("<IHHiIII", magic, 2, 4, 0, 0, 262144, 1)
    for nanoseconds, octets, original in records:
        made += struct.pack("<IIII", 0, nanoseconds, octets, original) + bytes(octets)
    return made


# A load whose first record, at 1,000 ns, is skipped. Its frames are at 3,049 and 2,000 ns: half bit 40, and 20, which
# is raised to 40; so is the send at 0 behind them. Of the other load a record that is too long is skipped, and one that
# was captured in part.
WITH_LOADS = LAYOUT.replace('segment = "x"\nat = 0', 'segment = "x"\nat = 0\nload = "a.pcap"').replace(
    'segment = "y"\nat = 30', 'segment = "y"\nat = 30\nload = "b.pcap"')
LOADS = {"a.pcap": capture((1000, 13, 13), (3049, 60, 60), (2000, 61, 61)),
         "b.pcap": capture((5000, 1515, 1515), (6000, 60, 61), (7000, 98, 98))}
LOADED = ("a,1,64,40,,,,0,left,,\na,2,65,40,,,,0,left,,\na,3,64,40,,,,0,left,,\n"
          "b,1,102,120,,,,0,left,,\nb,2,64,120,,,,0,left,,\n")


def named(line):
    return f"10 station a received octets 64\n{line}\n12 station nobody received octets 64\n"


SENDING = "1677 station b sent frame {} start 525 attempt 2"

# Lines that name what the layout has, and lines that name what it lacks.
KNOWN = ["11 station b dropped fcs halves 1152", "11 repeater r clash", "11 repeater r closed port 2",
         "11 repeater r halted port 1"]
STRANGE = ["11 station r received octets 64", "11 station c dropped fcs halves 9", "11 repeater a clash",
           "11 repeater q clash", "11 repeater r closed port 3", "11 repeater r opened port 0",
           "11 repeater r halted port 3", "11 station b cut frame 2 start 5 attempt 1 hit none",
           "11 station b sent frame 0 start 5 attempt 1",
           "11 station b collided frame 2 start 5 attempt 1 hit 1 draw 0",
           "11 station b given_up frame 4294967295 start 5 hit 1"]

# Lines that are none of a log.
BAD = ["", "11 station b received octets 064", "11 station b received octets 4294967296", "11 station b clash",
       "11 repeater r received octets 64", "11 station b dropped lost halves 9", "11  repeater r clash",
       "11 station b sent frame 1 start 12 attempt 1", "11 repeater r clash ", "11 repeater r clash\r",
       "2000000001 repeater r clash", "011 repeater r clash", "11 repeater r/ clash",
       "11 station b given_up frame 1 start 5 attempt 16 hit 1",
       "11 station b collided frame 1 start 5 attempt 1 hit none draw 0"]
