"""Writes packet captures packet by packet, each at its millisecond, for checks of tools/from-capture."""
import ipaddress
import struct

from drawn_capture import ACK, KINDS, RST, SYN, dns, ip, record, tcp, udp

BEGUN = 1_764_000_000_000  # milliseconds, of tick 0: 2025-11-24T16:00:00.000Z
RAW, ETHERNET = 101, 1
CLIENT, CLIENT6 = "192.0.2.2", "2001:db8::2"
SERVER, OTHER_SERVER = "192.0.2.53", "192.0.2.54"
ROUTER, ROUTER6 = "192.0.2.1", "2001:db8::1"
SIX, FOUR = "2001:db8:1::80", "198.51.100.80"


def address(text):
    return ipaddress.ip_address(text)


class Capture:
    """The packets. A query that is sent again has its number; a connection is known by its client's port."""

    def __init__(self, link=RAW, mac=b"\2\0\0\0\0\2"):
        self.link, self.mac, self.packets = link, mac, []
        self.number = 100  # of queries; another look-up of a name has another

    def add(self, ms, packet, tags=b""):
        """Adds an IP packet; over Ethernet, with VLAN tags."""
        if self.link == ETHERNET:
            kind = struct.pack("!H", 0x0800 if packet[0] >> 4 == 4 else 0x86DD)
            packet = b"\2\0\0\0\0\1" + self.mac + tags + kind + packet
        self.packets.append((ms, len(self.packets), packet))

    def write(self, file, begun=BEGUN):
        head = struct.pack("<IHHiIII", 0xA1B2C3D4, 2, 4, 0, 0, 65535, self.link)
        with open(file, "wb") as out:
            out.write(head)
            for ms, _, packet in sorted(self.packets):
                at = begun + ms
                out.write(struct.pack("<IIII", at // 1000, at % 1000 * 1000, len(packet), len(packet)) + packet)
        return file

    def seek(self, ms, target, client=CLIENT):
        """A client's request for its neighbour's link-layer address: ARP over Ethernet, or neighbour solicitation."""
        if ":" not in target:
            body = struct.pack("!HHBBH", 1, 0x0800, 6, 4, 1) + self.mac + address(client).packed + bytes(6)
            self.packets.append((ms, len(self.packets), b"\xff" * 6 + self.mac + b"\x08\x06" + body
                                 + address(target).packed))
        else:
            body = struct.pack("!BBHI", 135, 0, 0, 0) + address(target).packed
            self.add(ms, ip(address(client), address("ff02::1:ff00:53"), 58, body))

    def query(self, name, version, client=CLIENT, server=SERVER):
        return udp(address(client), 5000 + version, address(server), 53, dns(self.number + version, name, version))

    def ask(self, ms, name, *versions, client=CLIENT, server=SERVER):
        for version in versions or (6, 4):
            self.add(ms, self.query(name, version, client, server))

    def answer(self, ms, name, version, *found, code=0, client=CLIENT, server=SERVER):
        records = [record(name, KINDS[version], address(each).packed) for each in found]
        message = dns(self.number + version, name, version, records, 0x8180 | code)
        self.add(ms, udp(address(server), 53, address(client), 5000 + version, message))

    def answer_both(self, ms, name, client=CLIENT, server=SERVER):
        self.answer(ms, name, 6, SIX, client=client, server=server)
        self.answer(ms, name, 4, FOUR, client=client, server=server)

    def segment(self, ms, to, port, flags, sequence=1000, acked=0, data=b"", client=None, back=False, at=443):
        """A segment of the client, or of the address."""
        client = client or (CLIENT6 if ":" in to else CLIENT)
        ends = (address(client), port, address(to), at)
        packet = tcp(*(ends[2:] + ends[:2] if back else ends), sequence, flags, data)
        head = 20 if packet[0] >> 4 == 4 else 40
        self.add(ms, packet[:head + 8] + struct.pack("!I", acked) + packet[head + 12:])

    def syn(self, ms, to, port, **more):
        self.segment(ms, to, port, SYN, **more)

    def accept(self, ms, to, port, **more):
        self.segment(ms, to, port, SYN | ACK, 7000, 1001, back=True, **more)

    def refuse(self, ms, to, port, **more):
        self.segment(ms, to, port, RST | ACK, 0, 1001, back=True, **more)

    def error(self, ms, packet, kind, code, is_whole=False):
        """An ICMP error of the router about a packet, of which ICMP quotes 8 bytes after the header at least."""
        version = packet[0] >> 4
        source = packet[12:16] if version == 4 else packet[8:24]
        body = struct.pack("!BBHI", kind, code, 0, 0) + packet[:28 if version == 4 and not is_whole else 1000]
        self.add(ms, ip(address(ROUTER if version == 4 else ROUTER6), ipaddress.ip_address(source),
                        1 if version == 4 else 58, body))

    def last(self):
        """The packet that was added last."""
        return self.packets[-1][2]


def looked_up(name="www.example.com"):
    """A capture with a look-up that takes 1 ms."""
    capture = Capture()
    capture.ask(0, name)
    capture.answer_both(1, name)
    return capture
