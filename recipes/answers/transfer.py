"""A file over stop-and-wait: each block is sent until its acknowledgement comes, then the next one.

A frame has Ethernet's type for local experiments (0x88B5), then an octet that says what it is, the block's number in
four octets, its length in two, and the data. A block that isn't full is the last one."""
import struct

import answers
import packets

KIND = 0x88B5
BLOCK, ACKNOWLEDGEMENT = 1, 2
FULL = 512


def message(what, number, data=b""):
    return struct.pack(">BIH", what, number, len(data)) + data


def read_message(octets, own):
    """What a frame says, its number and its data, if it is for this station."""
    frame = packets.read_frame(octets)
    if frame.to != own or frame.kind != KIND or len(frame.data) < 7:
        return None, 0, b""
    what, number, length = struct.unpack_from(">BIH", frame.data)
    return what, number, frame.data[7:7 + length]


class Sender(answers.Station):
    """Sends a file. It thinks so long before it sends a block, and sends the block again after a timeout. `blocks`
    counts how often it sent one, `repeated` how often again, and `done` is when the last acknowledgement came."""

    def __init__(self, own, to, file, thinks, timeout):
        self.own, self.to, self.file = packets.mac(own), packets.mac(to), file
        self.thinks, self.timeout = thinks, timeout
        self.number = self.blocks = self.repeated = 0
        self.done = None

    def start(self, now):
        return self.block()

    def block(self):
        data = self.file[self.number * FULL:(self.number + 1) * FULL]
        self.blocks += 1
        octets = packets.frame(self.to, self.own, KIND, message(BLOCK, self.number, data))
        return [answers.Send(octets, self.thinks), answers.Timer("again", self.timeout)]

    def received(self, now, octets):
        what, number, _ = read_message(octets, self.own)
        if what != ACKNOWLEDGEMENT or number != self.number or self.done is not None:
            return []
        if (number + 1) * FULL > len(self.file):
            self.done = now
            return [answers.Timer("again", None)]
        self.number += 1
        return self.block()

    def timer(self, now, name):
        self.repeated += 1
        return self.block()


class Receiver(answers.Station):
    """Takes a file, and acknowledges each block, one that it has already too. `doubles` counts those."""

    def __init__(self, own, to, thinks):
        self.own, self.to, self.thinks = packets.mac(own), packets.mac(to), thinks
        self.file, self.due, self.doubles = b"", 0, 0

    def received(self, now, octets):
        what, number, data = read_message(octets, self.own)
        if what != BLOCK or number > self.due:
            return []
        if number == self.due:
            self.file, self.due = self.file + data, self.due + 1
        else:
            self.doubles += 1
        octets = packets.frame(self.to, self.own, KIND, message(ACKNOWLEDGEMENT, number))
        return [answers.Send(octets, self.thinks)]
