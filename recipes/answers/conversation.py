"""What a capture tells of ARP and ICMP echo, each frame as a tuple of words: by tshark, or by a reading of our own that
looks at lengths and checksums."""
import shutil
import struct
import subprocess

import answers

FIELDS = ("eth.dst", "arp.opcode", "arp.src.proto_ipv4", "arp.dst.proto_ipv4", "ip.src", "ip.dst", "icmp.type",
          "icmp.ident", "icmp.seq", "ip.checksum.status", "icmp.checksum.status")
GOOD = "1"


def arp(to, operation, source, target):
    """How an ARP packet is told: to which hardware address, 1 for a request or 2 for a reply, who sends it and for or
    to whom."""
    return (to, "arp", str(operation), source, target)


def echo(to, kind, source, target, identifier, sequence):
    """How an ICMP echo is told: 8 for a request and 0 for a reply."""
    return (to, "echo", str(kind), source, target, str(identifier), str(sequence))


def by_tshark(path):
    words = [word for field in FIELDS for word in ("-e", field)]
    done = subprocess.run(["tshark", "-n", "-r", str(path), "-o", "ip.check_checksum:TRUE", "-T", "fields", *words],
                          stdout=subprocess.PIPE, stderr=subprocess.DEVNULL, universal_newlines=True, check=True)
    found = []
    for line in done.stdout.splitlines():
        to, operation, asks, asked, source, target, kind, identifier, sequence, *sums = line.split("\t")
        if operation:
            found.append(arp(to, operation, asks, asked))
        elif sums == [GOOD, GOOD]:
            found.append(echo(to, kind, source, target, int(identifier, 0), int(sequence, 0)))
        else:
            found.append(("bad", line))
    return found


def words_sum(octets):
    """The sum of the words of 16 bits, with end-around carry: 0xFFFF where a checksum in them is right (RFC 1071)."""
    total = 0
    for place in range(0, len(octets), 2):
        total += int.from_bytes(octets[place:place + 2].ljust(2, b"\0"), "big")
        total = total % 0x10000 + total // 0x10000
    return total


def dotted(octets):
    return ".".join(map(str, octets))


def told(octets):
    """One frame, by our own reading."""
    to = ":".join(f"{octet:02x}" for octet in octets[:6])
    kind, rest = octets[12:14].hex(), octets[14:]
    if kind == "0806" and rest[:6].hex() == "000108000604" and octets[6:12] == rest[8:14]:
        return arp(to, rest[7], dotted(rest[14:18]), dotted(rest[24:28]))
    length = int.from_bytes(rest[2:4], "big")
    if kind == "0800" and rest[0] == 0x45 and rest[9] == 1 and 28 <= length <= len(rest):
        header, message = rest[:20], rest[20:length]
        if words_sum(header) == words_sum(message) == 0xFFFF and not any(rest[length:]):
            return echo(to, message[0], dotted(header[12:16]), dotted(header[16:20]),
                        *struct.unpack_from(">HH", message, 4))
    return ("bad", octets.hex())


def of(path):
    """What a capture tells: by tshark too where it is there, which must tell the same."""
    own = [told(octets) for _, octets in answers.records(path)]
    if shutil.which("tshark") and by_tshark(path) != own:
        raise SystemExit(f"tshark reads {path} as {by_tshark(path)}, and not as {own}")
    return own
