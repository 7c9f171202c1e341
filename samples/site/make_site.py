#!/usr/bin/env python3
"""make_site.py [--seed N] FOLDER: writes the captures of a site with four capture points into FOLDER, and planted.json,
which says what is wrong there. docs/OPERATING.md goes through them.

    clients -- edge ---- leaf ---- core ---- exit -- servers
               802.1Q    VXLAN     GRE    (NAT) raw IP

  edge.pcap    libpcap in microseconds: a tag, then IPv4 or IPv6
  leaf.pcap    libpcap in nanoseconds, its numbers with the highest byte first: VXLAN to the UDP port 8472. Two queues
               are written in turn, so its records are out of order
  core.pcapng  pcapng with two interfaces, 0 for what goes to the servers and 1 for what comes back: GRE with a key. Its
               clock is 2 milliseconds behind
  exit.pcap    libpcap in nanoseconds, raw IP: after the NAT, which gives each client an address of its own

  any.pcap     the first packets of exit as the device any of Linux has them, which dshark refuses
  sums.pcap    the first packets of edge with the checksum of each frame, and a link type that says so; it is refused too

Ten packets are lost, some of which are sent again, and one leaves the NAT with the address that it had. Every hop takes
one off the TTL. The same seed makes the same files.
"""

import argparse
import json
import os
import random
import struct
import sys

sys.path.insert(0, os.path.join(os.path.dirname(os.path.abspath(__file__)), "../network"))
sys.dont_write_bytecode = True
from make_network import GRE, IPV4, SECOND, START, UDP, checksum, ethernet, ipv4, pcap, pcapng

IPV6, TAG, TCP, MILLISECOND, MICROSECOND = 0x86DD, 0x8100, 6, 1_000_000, 1_000
POINTS = ("edge", "leaf", "core", "exit")  # in the order of the way to the servers
BEHIND = 2 * MILLISECOND  # of the clock of core
LEAST = (131 * MICROSECOND, 104 * MICROSECOND, 163 * MICROSECOND)  # of the way from one point to the next, either way
AGAIN = 220 * MILLISECOND  # after which a lost packet of TCP is sent again
CLIENTS = {f"10.1.0.{k}": f"203.0.113.{k}" for k in (11, 12, 13, 14)}  # what the NAT makes of each
SERVERS = ("198.51.100.21", "198.51.100.22")
CLIENT6, SERVER6 = "20010db8000100000000000000000011", "20010db8000200000000000000000021"


class Packet:
    """A packet of a flow: its way, its numbers and what happens to it."""

    def __init__(self, flow, time, forth, identification, ports, numbers, payload):
        self.flow, self.time, self.forth, self.identification = flow, time, forth, identification
        self.ports, self.numbers, self.payload = ports, numbers, payload
        self.lost_after = None  # the last point that sees it
        self.is_kept_by_nat = False

    def way(self):
        """The points that it passes."""
        way = POINTS if self.forth else POINTS[::-1]
        return way[:way.index(self.lost_after) + 1] if self.lost_after else way


def address(text):
    return bytes(map(int, text.split("."))) if "." in text else bytes.fromhex(text)


def transport(flow, packet, source, destination):
    """TCP or UDP, with a checksum that covers the addresses."""
    if flow["protocol"] == TCP:
        sequence, acknowledged = packet.numbers
        head = struct.pack(">HHIIBBHHH", *packet.ports, sequence, acknowledged, 0x50, 0x18 if packet.payload else 0x10, 512, 0, 0)
        place, protocol = 16, TCP
    else:
        head, place, protocol = struct.pack(">HHHH", *packet.ports, 8 + len(packet.payload), 0), 6, UDP
    octets = head + packet.payload
    if len(source) == 4:
        covered = source + destination + struct.pack(">BBH", 0, protocol, len(octets))
    else:
        covered = source + destination + struct.pack(">II", len(octets), protocol)
    return octets[:place] + struct.pack(">H", checksum(covered + octets) or 0xFFFF) + octets[place + 2:]


def network_packet(packet, point):
    """The packet as it passes a point, from its IPv4 or IPv6 header on."""
    flow = packet.flow
    client, server = flow["client"], flow["server"]
    if point == "exit" and "." in client and not packet.is_kept_by_nat:
        client = CLIENTS[client]
    source, destination = map(address, (client, server) if packet.forth else (server, client))
    ttl = (64 if packet.forth else 59) - packet.way().index(point)
    octets = transport(flow, packet, source, destination)
    if len(source) == 4:
        return ipv4(source, destination, flow["protocol"], packet.identification, ttl, octets)
    head = struct.pack(">IHBB", 6 << 28 | flow["label"][packet.forth], len(octets), flow["protocol"], ttl)
    return head + source + destination + octets


def frame(packet, point, number):
    """What a point captures; a tunnel's header has an identification of its own."""
    octets = network_packet(packet, point)
    kind = IPV4 if octets[0] >> 4 == 4 else IPV6
    if point == "exit":
        return octets
    if point == "edge":
        return ethernet(struct.pack(">HH", 30, kind) + octets, TAG)
    ends = (1, 2) if packet.forth else (2, 1)
    source, destination = (bytes((172, 16, {"leaf": 0, "core": 1}[point], end)) for end in ends)
    if point == "core":
        return ethernet(ipv4(source, destination, GRE, number, 250, struct.pack(">HHI", 0x2000, kind, 9) + octets))
    inner = struct.pack(">II", 0x08000000, 300 << 8) + ethernet(octets, kind)
    port = 49_152 + sum(packet.ports) % 1_000
    outer = struct.pack(">HHHH", port, 8472, 8 + len(inner), 0) + inner
    return ethernet(ipv4(source, destination, UDP, number, 250, outer))


def flows(draw):
    """Who speaks with whom. Some systems number their packets, and others write 0."""
    made = []
    for number, client in enumerate(CLIENTS):
        server = SERVERS[number % 2]
        made.append({"client": client, "server": server, "protocol": TCP, "port": 40_000 + 7 * number, "is_numbered": number != 2})
        made.append({"client": client, "server": server, "protocol": UDP, "port": 50_000 + 11 * number, "is_numbered": True})
    for number, protocol in enumerate((TCP, UDP)):
        made.append({"client": CLIENT6, "server": SERVER6, "protocol": protocol, "port": 45_000 + number,
                     "label": (draw.randrange(1, 2**20), draw.randrange(1, 2**20))})
    return made


def talk(draw, flow, counters, rounds=45):
    """The packets of a flow: the client asks and the server answers, in turn."""
    is_tcp = flow["protocol"] == TCP
    service, asked, answered = 443 if is_tcp else 7000, draw.randrange(2**31), draw.randrange(2**31)
    time, port, packets = START + draw.randrange(40 * MILLISECOND), flow["port"], []

    def send(forth, payload):
        sender = flow["client"] if forth else flow["server"]
        counters[sender] = counters.get(sender, draw.randrange(1, 20_000)) + 1
        identification = counters[sender] if flow.get("is_numbered") else 0
        numbers = (asked, answered) if forth else (answered, asked)
        ports = (port, service) if forth else (service, port)
        packets.append(Packet(flow, time, forth, identification, ports, numbers, payload))

    for turn in range(rounds):
        time += 30 * MILLISECOND + draw.randrange(15 * MILLISECOND)
        question = bytes(draw.randrange(256) for _ in range(20 + draw.randrange(60)))
        send(True, question)
        asked += len(question)
        time += 2 * MILLISECOND + draw.randrange(MILLISECOND)
        answer = bytes(draw.randrange(256) for _ in range(40 + draw.randrange(200)))
        send(False, answer)
        answered += len(answer)
        if is_tcp:  # that it came is told by a packet without a payload
            time += 2 * MILLISECOND + draw.randrange(MILLISECOND)
            send(True, b"")
        elif turn % 5 == 4:
            port += 1
    return packets


def plant(draw, packets):
    """Ten losses, of both directions and families, of which four are sent again; and one address that stays."""
    forth4, back4, both6 = [], [], []
    for packet in packets:
        kind = both6 if "label" in packet.flow else forth4 if packet.forth else back4
        if packet.payload and packet.time < START + SECOND:
            kind.append(packet)
    lost = draw.sample(forth4, 4) + draw.sample(back4, 3) + draw.sample(both6, 3)
    for number, packet in enumerate(lost):
        packet.lost_after = packet.way()[number % 3]
    again = []
    for packet in (packet for packet in lost if packet.flow["protocol"] == TCP):
        copy = Packet(packet.flow, packet.time + AGAIN, packet.forth, packet.identification, packet.ports, packet.numbers, packet.payload)
        copy.identification += 30_000 if packet.identification else 0
        again.append(copy)
    kept = draw.choice([packet for packet in forth4 if packet not in lost])
    kept.is_kept_by_nat = True
    return lost, kept, again


def captured(draw, packets):
    """The records of each point by its own clock, in the order of its file: time, frame, interface."""
    records = {point: [] for point in POINTS}
    for packet in packets:
        time = packet.time
        way = packet.way()
        for hop, point in enumerate(way):
            if hop:
                place = POINTS.index(point) - (1 if packet.forth else 0)
                time += LEAST[place] + draw.randrange(40 * MICROSECOND)
                time += draw.randrange(3 * MILLISECOND) if draw.random() < 0.02 else 0  # it waits
            clock = time - (BEHIND if point == "core" else 0)
            records[point].append([clock, packet, 0 if packet.forth else 1])
    number = 30_000
    for point, of in records.items():
        of.sort(key=lambda record: record[0])
        for record in of:
            number = number % 65_535 + 1
            record[1] = frame(record[1], point, number)
    # Questions for addresses, in which there is no IPv4 header.
    for turn in range(12):
        asks = struct.pack(">HHBBH", 1, IPV4, 6, 4, 1) + bytes(20)
        records["edge"].append([START + turn * 150 * MILLISECOND, ethernet(struct.pack(">HH", 30, 0x0806) + asks, TAG), 0])
    records["edge"].sort(key=lambda record: record[0])
    # The second queue of leaf is written after records that came later.
    leaf = records["leaf"]
    for place in range(25, len(leaf) - 2, 50):
        if leaf[place + 1][0] - leaf[place][0] < 300 * MICROSECOND:
            leaf[place], leaf[place + 1] = leaf[place + 1], leaf[place]
    return records


def told(packet):
    """What planted.json says of a packet: how it is found, and where it was seen last."""
    return {"family": 6 if "label" in packet.flow else 4, "forth": packet.forth, "id": packet.identification, "ports": packet.ports,
            "protocol": packet.flow["protocol"], "numbers": packet.numbers if packet.flow["protocol"] == TCP else None,
            "client": packet.flow["client"], "seen": list(packet.way())}


def make(seed):
    """The bytes of each file by its name, and what is planted."""
    draw, counters, packets = random.Random(seed), {}, []
    for flow in flows(draw):
        packets += talk(draw, flow, counters)
    lost, kept, again = plant(draw, packets)
    records = captured(draw, packets + again)
    files = {
        "edge.pcap": pcap([record[:2] for record in records["edge"]], "<", False),
        "leaf.pcap": pcap([record[:2] for record in records["leaf"]], ">", True),
        "core.pcapng": pcapng([(1, 9, 0), (1, 9, 0)], [(number, time, octets) for time, octets, number in records["core"]]),
        "exit.pcap": pcap([record[:2] for record in records["exit"]], "<", True, 101),
    }
    cooked = [[time, struct.pack(">HHH8sH", 0, 1, 6, b"\x02\0\0\0\0\1\0\0", 0x0800 if octets[0] >> 4 == 4 else IPV6) + octets]
              for time, octets, _ in records["exit"][:20]]
    summed = [[time, octets + bytes(4)] for time, octets, _ in records["edge"][:20]]
    files |= {"any.pcap": pcap(cooked, link=113), "sums.pcap": pcap(summed, link=0x54000001)}
    planted = {"lost": [told(packet) for packet in lost], "kept": told(kept), "behind": {"core": BEHIND}}
    return files, planted


def main():
    words = argparse.ArgumentParser(description=__doc__, formatter_class=argparse.RawDescriptionHelpFormatter)
    words.add_argument("--seed", type=int, default=1, help="the number that all is drawn from (default: 1)")
    words.add_argument("folder", metavar="FOLDER", help="where the files are written")
    asked = words.parse_args()
    files, planted = make(asked.seed)
    for name, octets in files.items():
        with open(os.path.join(asked.folder, name), "wb") as file:
            file.write(octets)
    with open(os.path.join(asked.folder, "planted.json"), "w", encoding="utf-8") as file:
        json.dump(planted, file, indent=2)
        file.write("\n")


if __name__ == "__main__":
    main()
