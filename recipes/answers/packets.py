"""Ethernet, ARP (RFC 826), IPv4 (RFC 791) and ICMP echo (RFC 792): octets to send, and what received octets say.

`read_..` gives None where octets aren't what they should be, with a wrong checksum too."""
import struct
import typing

BROADCAST = b"\xff" * 6
ARP, IPV4 = 0x0806, 0x0800
REQUEST, REPLY = 1, 2
ICMP = 1
ECHO_REPLY, ECHO_REQUEST = 0, 8


class Frame(typing.NamedTuple):
    to: bytes
    source: bytes
    kind: int
    data: bytes


class Arp(typing.NamedTuple):
    """Who asks or replies, and for or to whom: hardware and protocol addresses."""

    operation: int
    source_mac: bytes
    source_ip: bytes
    target_mac: bytes
    target_ip: bytes


class Packet(typing.NamedTuple):
    source: bytes
    to: bytes
    protocol: int
    data: bytes


class Echo(typing.NamedTuple):
    kind: int
    identifier: int
    sequence: int
    data: bytes


def mac(number):
    """A locally administered address."""
    return bytes([2, 0, 0, 0, 0, number])


def ip(number):
    """An address for examples (RFC 5737)."""
    return bytes([192, 0, 2, number])


def checksum(octets):
    """The complement of the ones' complement sum of the words of 16 bits (RFC 1071)."""
    total = sum(struct.unpack(f">{(len(octets) + 1) // 2}H", octets + b"\0" * (len(octets) % 2)))
    while total > 0xFFFF:
        total = (total & 0xFFFF) + (total >> 16)
    return 0xFFFF - total


def frame(to, source, kind, data):
    return to + source + struct.pack(">H", kind) + data


def read_frame(octets):
    return Frame(octets[:6], octets[6:12], int.from_bytes(octets[12:14], "big"), octets[14:])


def arp(packet):
    """Of Ethernet (hardware type 1) and IPv4, with addresses of 6 and 4 octets."""
    return struct.pack(">HHBBH6s4s6s4s", 1, IPV4, 6, 4, *packet)


def read_arp(data):
    if len(data) < 28 or data[:6] != struct.pack(">HHBB", 1, IPV4, 6, 4):
        return None
    return Arp(*struct.unpack_from(">H6s4s6s4s", data, 6))


def ipv4(packet, identification):
    """A header without options, which may be sent over 64 routers, and the data."""
    begin = struct.pack(">BBHHHBB", 0x45, 0, 20 + len(packet.data), identification, 0, 64, packet.protocol)
    ends = packet.source + packet.to
    return begin + struct.pack(">H", checksum(begin + b"\0\0" + ends)) + ends + packet.data


def read_ipv4(data):
    """A whole packet without options; what follows it is pad."""
    if len(data) < 20 or data[0] != 0x45 or checksum(data[:20]) != 0:
        return None
    length, fragment = struct.unpack_from(">H2xH", data, 2)
    if not 20 <= length <= len(data) or fragment & 0x3FFF:
        return None
    return Packet(data[12:16], data[16:20], data[9], data[20:length])


def icmp(echo):
    begin, rest = bytes([echo.kind, 0]), struct.pack(">HH", echo.identifier, echo.sequence) + echo.data
    return begin + struct.pack(">H", checksum(begin + b"\0\0" + rest)) + rest


def read_icmp(data):
    if len(data) < 8 or data[0] not in (ECHO_REPLY, ECHO_REQUEST) or data[1] != 0 or checksum(data) != 0:
        return None
    return Echo(data[0], *struct.unpack_from(">HH", data, 4), data[8:])
