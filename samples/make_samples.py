#!/usr/bin/env python3
"""Writes one-link.pcap beside this script: a capture of one link, made by rule, so it can be made again.

libpcap 2.4, little-endian, microseconds, Ethernet. The identifications of the IPv4 packets are chosen so that
each line of the report of `count ipv4[0].id 1000000` has something to show: copies inside the window, copies
after it, a frame without IPv4, a packet that stands out of order, one that comes too late, and a file that ends
inside its last record.
"""

import os
import struct

SECOND = 1_000_000  # in microseconds
START = 1_700_000_000 * SECOND

HOSTS = {"client": (bytes.fromhex("020000000001"), bytes([10, 0, 0, 1])),
         "server": (bytes.fromhex("020000000002"), bytes([10, 0, 0, 2]))}


def checksum(header):
    total = sum(struct.unpack(f">{len(header) // 2}H", header))
    while total >> 16:
        total = (total & 0xFFFF) + (total >> 16)
    return ~total & 0xFFFF


def ethernet(source, destination, kind, payload):
    return HOSTS[destination][0] + HOSTS[source][0] + struct.pack(">H", kind) + payload


def datagram(identification, ttl, text):
    """A UDP datagram of the client to the server."""
    udp = struct.pack(">HHHH", 40000, 9, 8 + len(text), 0) + text
    addresses = HOSTS["client"][1] + HOSTS["server"][1]
    head = struct.pack(">BBHHHBBH", 0x45, 0, 20 + len(udp), identification, 0x4000, ttl, 17, 0) + addresses
    head = head[:10] + struct.pack(">H", checksum(head)) + head[12:]
    return ethernet("client", "server", 0x0800, head + udp)


def question():
    """An ARP request of the client for the server's address."""
    mac, address = HOSTS["client"]
    arp = struct.pack(">HHBBH", 1, 0x0800, 6, 4, 1) + mac + address + bytes(6) + HOSTS["server"][1]
    return b"\xff" * 6 + mac + struct.pack(">H", 0x0806) + arp


def record(micros, frame):
    time = START + micros
    return struct.pack("<IIII", time // SECOND, time % SECOND, len(frame), len(frame)) + frame


def rows():
    """Each record as its time in microseconds from the start, and its frame."""
    yield 0, question()
    # Eight packets, of which every second one is seen twice, 400 microseconds apart: inside the window.
    for k in range(8):
        yield 1_000 + 2_000 * k, datagram(100 + k, 64, b"ping %d" % k)
        if k % 2 == 1:
            yield 1_400 + 2_000 * k, datagram(100 + k, 63, b"ping %d" % k)
    # Identification 100 again: exactly at the end of the window of its new first, and one microsecond past it.
    yield 20_000, datagram(100, 64, b"at the end")
    yield 21_000, datagram(100, 63, b"at the end")
    yield 21_001, datagram(100, 62, b"past the end")
    # Written out of order: the later of two records stands first.
    yield 30_000, datagram(200, 64, b"second")
    yield 29_900, datagram(201, 64, b"first")
    # Five copies of one packet, 150 microseconds apart.
    for k in range(5):
        yield 40_000 + 150 * k, datagram(300, 64 - k, b"five times")
    # An hour and a second later the link is in use again, and a record of the old hour comes too late.
    yield 3_601 * SECOND, datagram(400, 64, b"next hour")
    yield 50_000, datagram(401, 64, b"too late")
    yield 3_601 * SECOND + 500, datagram(400, 63, b"next hour")
    yield 3_602 * SECOND, question()
    yield 3_603 * SECOND, datagram(500, 64, b"last whole")
    yield 3_604 * SECOND, datagram(501, 64, b"this record is cut")


def main():
    head = struct.pack("<IHHiIII", 0xA1B2C3D4, 2, 4, 0, 0, 262_144, 1)
    records = b"".join(record(micros, frame) for micros, frame in rows())
    path = os.path.join(os.path.dirname(os.path.abspath(__file__)), "one-link.pcap")
    with open(path, "wb") as file:
        file.write((head + records)[:-10])


if __name__ == "__main__":
    main()
