"""stack_lines.py [FILE]: reads what `tshark -T pdml` prints, and prints the lines that `dshark stack` owes, but for the
last. With FILE it writes the identification of the outermost IPv4 header of each packet there, in rising order.

Of tshark's layers those count that stand in front of the first that dshark does not know, or that is not whole; a packet
that is neither on Ethernet nor raw IP has none. What tshark shows of a pcapng file and is no packet, since it has no
interface, is left out. A packet for which tshark has no time, a simple one, has that of the packet before it of its
interface, or 0.
"""

import sys
import xml.etree.ElementTree as tree

KINDS = {"eth": "eth", "vlan": "tag", "ieee8021ad": "tag", "ip": "ipv4", "ipv6": "ipv6", "ipv6.hopopts": "ext",
         "ipv6.routing": "ext", "ipv6.dstopts": "ext", "ipv6.fraghdr": "frag", "tcp": "tcp", "udp": "udp", "icmp": "icmp",
         "icmpv6": "icmp6", "gre": "gre", "vxlan": "vxlan"}
LENGTHS = {"ipv6": 40, "icmp": 8, "icmp6": 8}  # where tshark's item is longer than the header
LEAST = {"eth": 14, "tag": 4, "ipv4": 20, "ext": 8, "frag": 8, "tcp": 20, "udp": 8, "gre": 4, "vxlan": 8, **LENGTHS}
NOTES = ("geninfo", "frame", "pkt_comment", "raw", "_ws.expert")  # of tshark, which are no layers
ETHERNET, RAW_IP = "1", "7"


def headers(packet):
    """The kind, the place, the length and the layer of each header."""
    for layer in packet.iter("proto"):
        name = layer.get("name")
        if name in NOTES:
            continue
        kind, size = KINDS.get(name), int(layer.get("size", 0))
        if kind is None or size < LEAST[kind]:
            return
        yield kind, int(layer.get("pos")), LENGTHS.get(kind, size), layer
        if kind in ("icmp", "icmp6"):
            return


def nanoseconds(text):
    seconds, fraction = text.split(".")
    return int(seconds) * 10**9 + int(fraction.ljust(9, "0"))


def main():
    number, times, identifications = 0, {}, []
    for _, packet in tree.iterparse(sys.stdin.buffer):
        if packet.tag != "packet":
            continue
        frame = {field.get("name"): field.get("show") for field in packet.find("proto[@name='frame']").iter("field")}
        interface = frame.get("frame.section_number"), frame.get("frame.interface_id")
        if interface[0] is None or interface[1] is not None:
            if frame.get("frame.time_epoch"):
                times[interface] = nanoseconds(frame["frame.time_epoch"])
            stack = list(headers(packet)) if frame["frame.encap_type"] in (ETHERNET, RAW_IP) else []
            shown = "".join(f" {kind}[{start}..{start + size}]" for kind, start, size, _ in stack)
            print(f"{number} {times.get(interface, 0)}{shown}")
            number += 1
            ipv4 = [layer for kind, _, _, layer in stack if kind == "ipv4"][:1]
            identifications += [int(layer.find("field[@name='ip.id']").get("show"), 0) for layer in ipv4]
        packet.clear()
    if sys.argv[1:]:
        with open(sys.argv[1], "w", encoding="utf-8") as file:
            file.writelines(f"{identification}\n" for identification in sorted(identifications))


main()
