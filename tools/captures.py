"""Looks into capture files for the tools beside this module: which kind of file one is, what its packets are, and which
program makes a file of it that dshark reads. It is no second reader of captures: what dshark refuses, it refuses.
"""

import os
import shlex
import struct

SECTION, INTERFACE, SIMPLE, ENHANCED = 0x0A0D0D0A, 1, 3, 6
MOST_BYTES, MOST_BLOCK = 262_144, 16_777_216  # of a packet and of a block, as dshark takes them
ORDERS = {b"\xd4\xc3\xb2\xa1": "<", b"\xa1\xb2\xc3\xd4": ">", b"\x4d\x3c\xb2\xa1": "<", b"\xa1\xb2\x3c\x4d": ">"}
PACKED = {b"\x1f\x8b": "gunzip -k {file}", b"\x28\xb5\x2f\xfd": "unzstd {file}", b"\xfd7zXZ": "unxz -k {file}",
          b"\x04\x22\x4d\x18": "unlz4 {file}", b"BZh": "bunzip2 -k {file}"}
COPY = "editcap -F nsecpcap {file} {stem}-read.pcap"
# What makes Ethernet or raw IP of another link type: the header before the packet is taken off.
LINKS = {0: "editcap -C 4 -L -T rawip -F nsecpcap {file} {stem}-read.pcap", 12: COPY, 14: COPY,
         113: "editcap -C 16 -L -T rawip -F nsecpcap {file} {stem}-read.pcap",
         228: "editcap -T rawip -F nsecpcap {file} {stem}-read.pcap", 229: "editcap -T rawip -F nsecpcap {file} {stem}-read.pcap",
         276: "editcap -C 20 -L -T rawip -F nsecpcap {file} {stem}-read.pcap"}
NAMES = {0: "BSD loopback", 12: "raw IP of BSD", 14: "raw IP of BSD", 105: "802.11", 113: "Linux cooked, as of the device any",
         127: "radiotap", 228: "raw IPv4", 229: "raw IPv6", 276: "Linux cooked 2, as of the device any"}


class Cut(Exception):
    """The file ends inside a record or a block, or no more can be read of it."""


def taken(file, size):
    octets = file.read(size)
    if len(octets) < size:
        raise Cut
    return octets


def format_of(path):
    """The name of a file's format, for people."""
    with open(path, "rb") as file:
        start = file.read(4)
    return "pcapng" if start == b"\x0a\x0d\x0d\x0a" else "libpcap" if start in ORDERS else "no capture"


def pcap_parts(file):
    """The file's header, and then each packet as its bytes here, its interface (0), and its captured and original
    length."""
    head = taken(file, 24)
    order = ORDERS[head[:4]]
    yield head, None, 0, 0
    while record := file.read(16):
        if len(record) < 16:
            raise Cut
        captured, original = struct.unpack(order + "8xII", record)
        if captured > MOST_BYTES:
            raise Cut
        yield record + taken(file, captured), 0, captured, original


def pcapng_parts(file):
    """Each block as its bytes and, where it is a packet, its interface and its captured and original length."""
    order = "<"
    while head := file.read(8):
        if len(head) < 8:
            raise Cut
        front = taken(file, 4)
        if head[:4] == b"\x0a\x0d\x0d\x0a":
            order = "<" if front == b"\x4d\x3c\x2b\x1a" else ">"
        kind, length = struct.unpack(order + "II", head)
        if not (32 if kind == ENHANCED else 16 if kind == SIMPLE else 12) <= length <= MOST_BLOCK:
            raise Cut
        block = head + front + taken(file, length - 12)
        if kind == ENHANCED:
            interface, captured, original = struct.unpack(order + "8xI8xII", block[:28])
            yield block, interface, captured, original
        elif kind == SIMPLE:
            (original,) = struct.unpack(order + "I", front)
            yield block, 0, min(original, length - 16), original
        else:
            yield block, None, 0, 0


def parts(path):
    """The parts of a capture that dshark reads, up to where it may be cut or damaged."""
    with open(path, "rb") as file:
        is_pcapng = file.read(4) == b"\x0a\x0d\x0d\x0a"
        file.seek(0)
        try:
            yield from (pcapng_parts if is_pcapng else pcap_parts)(file)
        except Cut:
            return


def packets(path):
    """The interface and the captured and original length of each packet, in their order."""
    return (part[1:] for part in parts(path) if part[1] is not None)


def frames(path, interface=None):
    """The number that tshark gives to each record of an interface, or of all: its place in the file, from 1."""
    return [place for place, (of, _, _) in enumerate(packets(path), 1) if interface is None or of == interface]


def front(path, out, most):
    """Copies the first packets of a capture to another file, at most so many. Answers whether there are more."""
    count = 0
    with open(out, "wb") as file:
        for octets, interface, _, _ in parts(path):
            if interface is not None:
                if count == most:
                    return True
                count += 1
            file.write(octets)
    return False


def remedy(path):
    """Why dshark refuses a file, as far as its first bytes tell, and the command that makes one of it that it reads."""
    if not os.path.exists(path):
        return "there is no such file in this folder", None
    if not os.path.isfile(path):
        return "it is no file", None
    with open(path, "rb") as file:
        head = file.read(24)
    words = {"file": shlex.quote(path), "stem": shlex.quote(path.rsplit(".", 1)[0])}
    for start, command in PACKED.items():
        if head.startswith(start):
            return "it is packed", command.format(**words)
    if not head:
        return "it is empty", None
    if head.startswith(b"\x0a\x0d\x0d\x0a"):
        return "it is damaged", COPY.format(**words)
    if head[:4] not in ORDERS or len(head) < 24:
        return "it is neither libpcap nor pcapng as dshark reads them", COPY.format(**words)
    (link,) = struct.unpack(ORDERS[head[:4]] + "20xI", head)
    if link in (1, 101):
        return "it is damaged", COPY.format(**words)
    if link >> 16 and link & 0xFFFF in (1, 101):
        return "its link type says how long the checksum of each frame is", COPY.format(**words)
    name = f"its packets are of the link type {link}" + (f" ({NAMES[link]})" if link in NAMES else "")
    return name, LINKS[link].format(**words) if link in LINKS else None
