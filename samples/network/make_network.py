#!/usr/bin/env python3
"""make_network.py [FOLDER]: writes the captures of a small network, s1.pcap, s2.pcap, s2-ahead.pcap, s3.pcapng and
s4.pcap, beside this script or into FOLDER.

    h1 (s1) ---- leaf (s2) ---- spine (s3) ---- h2 (s4)
                    |                              |
                    +-------- other spine ---------+

Host h1 is 10.0.0.1 and h2 is 10.0.0.2. Each capture point records a packet once for each time that it passes: bare at
the hosts, in VXLAN at the leaf, in GRE with a key at the spine. At the other spine nothing is captured. Every hop
takes one off the TTL of the packet itself. All is made by rule, so it can be made again; the files differ in byte
order and in the unit of their times, as captures of different machines do. That of the spine is pcapng, and has two
interfaces: on the first it captures what it sends on to h2, on the second what h2 sends back.

s2-ahead.pcap is what another machine captured at the leaf: the same packets, by a clock that is set wrong, and partly
out of order.
"""

import os
import struct
import sys

SECOND = 1_000_000_000  # in nanoseconds, like every time here
START = 1_700_000_000 * SECOND

# Each capture point: its wrapping of a packet, the order of the numbers in its file, and whether times are written in
# nanoseconds there (else in microseconds).
POINTS = {
    "s1": ("bare", "<", False),
    "s2": ("vxlan", "<", True),
    "s3": ("gre", ">", True),
    "s4": ("bare", ">", False),
}

# Each packet: its identification, when it leaves, its text, and its hops: the capture point, or None where nothing is
# captured, and how long after the hop before.
PACKETS = [
    (1001, 0, b"straight", [("s1", 0), ("s2", 41_300), ("s3", 62_750), ("s4", 57_950)]),
    (1002, 100_000, b"straight", [("s1", 0), ("s2", 39_874), ("s3", 64_126), ("s4", 61_000)]),
    (1003, 200_000, b"round once", [("s1", 0), ("s2", 40_510), ("s3", 63_420), ("s2", 66_070), ("s3", 65_215), ("s4", 58_785)]),
    (1004, 300_000, b"lost", [("s1", 0), ("s2", 42_008), ("s3", 61_992)]),
    (1005, 450_000, b"other spine", [("s1", 0), ("s2", 40_125), (None, 60_000), ("s4", 59_875)]),
    (1006, 600_000, b"waits", [("s1", 0), ("s2", 41_777), ("s3", 63_223), ("s4", 3_120_000)]),
    (2001, 900_000, b"answer", [("s4", 0), ("s3", 60_400), ("s2", 64_600), ("s1", 45_000)]),
]
QUESTIONS = [("s1", 50_000), ("s4", 700_000)]  # where and when a host asks for the address of the other

# The other machine at the leaf: how far its clock is ahead, and the order in which it writes what was captured there. It
# has two queues, and empties them in turn.
AHEAD = 1_500_000
WRITTEN = [0, 2, 3, 4, 6, 1, 5, 7]

HOSTS = {1: (bytes.fromhex("020000000001"), bytes([10, 0, 0, 1])),
         2: (bytes.fromhex("020000000002"), bytes([10, 0, 0, 2]))}
LEAF, SPINE, END = bytes([172, 16, 0, 1]), bytes([172, 16, 0, 9]), bytes([172, 16, 0, 2])  # of the two tunnels
NETWORK = 100  # of VXLAN
TUNNEL = 7  # the key of GRE
IPV4, ARP, UDP, GRE = 0x0800, 0x0806, 17, 47


def checksum(octets):
    """The checksum of RFC 1071."""
    total = sum(struct.unpack(f">{len(octets) // 2}H", octets[:len(octets) // 2 * 2]))
    total += octets[-1] << 8 if len(octets) % 2 else 0
    while total >> 16:
        total = (total & 0xFFFF) + (total >> 16)
    return ~total & 0xFFFF


def ethernet(payload, kind=IPV4, source=b"\x02\0\0\0\1\1", destination=b"\x02\0\0\0\1\2"):
    return destination + source + struct.pack(">H", kind) + payload


def ipv4(source, destination, protocol, identification, ttl, payload):
    head = struct.pack(">BBHHHBBH", 0x45, 0, 20 + len(payload), identification, 0x4000, ttl, protocol, 0)
    head += source + destination
    return head[:10] + struct.pack(">H", checksum(head)) + head[12:] + payload


def udp(from_port, to_port, payload, addresses=None):
    """A UDP datagram; its checksum covers the addresses, and is left out (0) where there are none."""
    head = struct.pack(">HHHH", from_port, to_port, 8 + len(payload), 0)
    if addresses is None:
        return head + payload
    covered = addresses + struct.pack(">BBH", 0, UDP, 8 + len(payload)) + head + payload
    return head[:6] + struct.pack(">H", checksum(covered) or 0xFFFF) + payload


def datagram(identification, ttl, text, forth=True):
    """The IPv4 packet of h1 to h2, or of h2 to h1."""
    source, destination = (HOSTS[1], HOSTS[2]) if forth else (HOSTS[2], HOSTS[1])
    payload = udp(40_000, 50_000, text, source[1] + destination[1])
    return ipv4(source[1], destination[1], UDP, identification, ttl, payload)


def wrapped(wrapping, packet, number=0, forth=True):
    """The frame that carries a packet; a wrapping has an IPv4 header of its own, with this identification."""
    source, destination = (HOSTS[1][0], HOSTS[2][0]) if forth else (HOSTS[2][0], HOSTS[1][0])
    if wrapping == "bare":
        return ethernet(packet, IPV4, source, destination)
    if wrapping == "vxlan":
        inner = struct.pack(">II", 0x08000000, NETWORK << 8) + ethernet(packet, IPV4, source, destination)
        ends = (LEAF, SPINE) if forth else (SPINE, LEAF)
        return ethernet(ipv4(*ends, UDP, number, 255, udp(49_152, 4789, inner)))
    ends = (SPINE, END) if forth else (END, SPINE)
    return ethernet(ipv4(*ends, GRE, number, 255, struct.pack(">HHI", 0x2000, IPV4, TUNNEL) + packet))


def question(point):
    """An ARP request of the host at s1 or s4 for the address of the other."""
    asks, other = (HOSTS[1], HOSTS[2]) if point == "s1" else (HOSTS[2], HOSTS[1])
    arp = struct.pack(">HHBBH", 1, IPV4, 6, 4, 1) + asks[0] + asks[1] + bytes(6) + other[1]
    return ethernet(arp, ARP, asks[0], b"\xff" * 6)


def captured():
    """The records of each capture point: time and frame, in the order of their times."""
    records = {point: [] for point in POINTS}
    number = 30_000  # the identifications of wrappings are none of the packets'
    for identification, time, text, hops in PACKETS:
        forth = hops[0][0] == "s1"
        for passed, (point, after) in enumerate(hops):
            time += after
            number += 1
            if point is not None:
                packet = datagram(identification, 64 - passed, text, forth)
                records[point].append((START + time, wrapped(POINTS[point][0], packet, number, forth)))
    for point, time in QUESTIONS:
        records[point].append((START + time, question(point)))
    return {point: sorted(of) for point, of in records.items()}


def pcap(records, order="<", nanoseconds=True, link=1):
    """The bytes of a capture file, libpcap 2.4."""
    magic, unit = (0xA1B23C4D, 1) if nanoseconds else (0xA1B2C3D4, 1000)
    parts = [struct.pack(order + "IHHiIII", magic, 2, 4, 0, 0, 262_144, link)]
    for time, frame in records:
        parts.append(struct.pack(order + "IIII", time // SECOND, time % SECOND // unit, len(frame), len(frame)) + frame)
    return b"".join(parts)


def pcapng(interfaces, packets, order="<"):
    """The bytes of a capture file, one section of pcapng 1.0. An interface has a link type, a resolution (as its option
    has it) and an offset in seconds; a packet has the number of its interface, its time and its frame."""
    def padded(octets):
        return octets + bytes(-len(octets) % 4)

    def block(kind, body):
        length = struct.pack(order + "I", 12 + len(body))
        return struct.pack(order + "I", kind) + length + body + length

    def option(code, value):
        return struct.pack(order + "HH", code, len(value)) + padded(value)

    def units(time, resolution, offset):
        a_second = 10**resolution if resolution < 128 else 2**(resolution - 128)
        return (time - offset * SECOND) * a_second // SECOND

    end = option(0, b"")
    parts = [block(0x0A0D0D0A, struct.pack(order + "IHHq", 0x1A2B3C4D, 1, 0, -1) + option(4, b"make_network.py") + end)]
    for number, (link, resolution, offset) in enumerate(interfaces):
        options = option(2, b"port %d" % number) + option(9, bytes([resolution])) + option(14, struct.pack(order + "q", offset))
        parts.append(block(1, struct.pack(order + "HHI", link, 0, 262_144) + options + end))
    for interface, time, frame in packets:
        high, low = divmod(units(time, *interfaces[interface][1:]), 2**32)
        head = struct.pack(order + "IIIII", interface, high, low, len(frame), len(frame))
        parts.append(block(6, head + padded(frame)))
    for number, interface in enumerate(interfaces):  # statistics: how many packets each interface has received
        high, low = divmod(units(START + SECOND, *interface[1:]), 2**32)
        received = struct.pack(order + "Q", sum(of == number for of, _, _ in packets))
        parts.append(block(5, struct.pack(order + "III", number, high, low) + option(4, received) + end))
    return b"".join(parts)


def captured_at_spine():
    """What the spine writes: its packets, each with its interface."""
    return [(int(frame[26:34] == END + SPINE), time, frame) for time, frame in captured()["s3"]]


def captured_ahead():
    """What the other machine at the leaf writes."""
    records = captured()["s2"]
    return [(records[k][0] + AHEAD, records[k][1]) for k in WRITTEN]


def files():
    """The bytes of each file by its name."""
    made = {point + ".pcap": pcap(records, *POINTS[point][1:]) for point, records in captured().items() if point != "s3"}
    spine = pcapng([(1, 9, 0), (1, 9, START // SECOND)], captured_at_spine(), POINTS["s3"][1])
    return {**made, "s2-ahead.pcap": pcap(captured_ahead()), "s3.pcapng": spine}


def main():
    folder = sys.argv[1] if len(sys.argv) > 1 else os.path.dirname(os.path.abspath(__file__))
    for name, octets in files().items():
        with open(os.path.join(folder, name), "wb") as file:
            file.write(octets)


if __name__ == "__main__":
    main()
