"""Stations with an IPv4 address, which answer ARP requests and ICMP echo requests; and some that ping."""
import answers
import packets

# How long a host thinks before it answers.
THINKS = answers.microseconds(10)

# What ping sends: 56 octets.
DATA = bytes(range(56))


class Host(answers.Station):
    """Has the addresses of a number. It asks by ARP where to send a packet, and keeps the packet meanwhile."""

    def __init__(self, number):
        self.mac, self.ip = packets.mac(number), packets.ip(number)
        self.known = {}
        self.waiting = {}
        self.made = 0

    def received(self, now, octets):
        frame = packets.read_frame(octets)
        if frame.to not in (self.mac, packets.BROADCAST):
            return []
        if frame.kind == packets.ARP:
            return self.take_arp(packets.read_arp(frame.data))
        packet = packets.read_ipv4(frame.data) if frame.kind == packets.IPV4 else None
        if packet and packet.to == self.ip and packet.protocol == packets.ICMP:
            return self.take_echo(now, packet.source, packets.read_icmp(packet.data))
        return []

    def take_arp(self, arp):
        """RFC 826, packet reception: who asks for this host is known from then on, and gets a reply."""
        if not arp:
            return []
        if arp.source_ip in self.known or arp.target_ip == self.ip:
            self.known[arp.source_ip] = arp.source_mac
        if arp.target_ip != self.ip:
            return []
        if arp.operation == packets.REQUEST:
            reply = packets.Arp(packets.REPLY, self.mac, self.ip, arp.source_mac, arp.source_ip)
            return [self.frame(arp.source_mac, packets.ARP, packets.arp(reply))]
        return [self.frame(arp.source_mac, packets.IPV4, data) for data in self.waiting.pop(arp.source_ip, [])]

    def take_echo(self, now, source, echo):
        if echo and echo.kind == packets.ECHO_REQUEST:
            return self.packet(source, packets.icmp(echo._replace(kind=packets.ECHO_REPLY)))
        return []

    def packet(self, to, data):
        """What it takes to send ICMP to an address: the packet, or a request for the hardware address."""
        self.made += 1
        data = packets.ipv4(packets.Packet(self.ip, to, packets.ICMP, data), self.made)
        if to in self.known:
            return [self.frame(self.known[to], packets.IPV4, data)]
        self.waiting.setdefault(to, []).append(data)
        request = packets.Arp(packets.REQUEST, self.mac, self.ip, bytes(6), to)
        return [self.frame(packets.BROADCAST, packets.ARP, packets.arp(request))]

    def frame(self, to, kind, data):
        return answers.Send(packets.frame(to, self.mac, kind, data), THINKS)


class Pinger(Host):
    """Pings a host so many times, the first time at half bit FIRST and then each EVERY half bits. `trips` has for each
    sequence number, from 1, how long it took from the wish for the request to the reply."""

    def __init__(self, number, target, times, first, every):
        super().__init__(number)
        self.target, self.times, self.first, self.every = packets.ip(target), times, first, every
        self.identifier = number
        self.began, self.trips = {}, {}

    def start(self, now):
        return [answers.Timer("ping", self.first)]

    def timer(self, now, name):
        sequence = len(self.began) + 1
        self.began[sequence] = now
        echo = packets.Echo(packets.ECHO_REQUEST, self.identifier, sequence, DATA)
        wishes = self.packet(self.target, packets.icmp(echo))
        if sequence < self.times:
            wishes.append(answers.Timer("ping", self.every))
        return wishes

    def take_echo(self, now, source, echo):
        if echo and echo.kind == packets.ECHO_REPLY:
            if source == self.target and echo.identifier == self.identifier and echo.data == DATA:
                self.trips.setdefault(echo.sequence, now - self.began[echo.sequence])
            return []
        return super().take_echo(now, source, echo)
