"""The fields of headers that dshark knows, by kind and name, each with the form in which its number is printed. They
are those of crates/field_table/src/table.rt, which tests/tools/report.sh compares."""

import re

FIELDS = {
    "eth": {"dst": "Mac", "src": "Mac", "type": "Hex"},
    "tag": {"pcp": "Dec", "dei": "Dec", "vid": "Dec", "type": "Hex"},
    "ipv4": {"version": "Dec", "ihl": "Dec", "tos": "Hex", "len": "Dec", "id": "Dec", "flags": "Dec", "off": "Dec",
             "ttl": "Dec", "proto": "Dec", "sum": "Hex", "src": "Addr4", "dst": "Addr4"},
    "ipv6": {"version": "Dec", "class": "Hex", "flow": "Hex", "len": "Dec", "next": "Dec", "hops": "Dec",
             "src": "Addr6", "dst": "Addr6"},
    "ext": {"next": "Dec", "hlen": "Dec"},
    "frag": {"next": "Dec", "off": "Dec", "more": "Dec", "id": "Dec"},
    "tcp": {"sport": "Dec", "dport": "Dec", "seq": "Dec", "ack": "Dec", "off": "Dec", "flags": "Hex", "window": "Dec",
            "sum": "Hex", "urg": "Dec"},
    "udp": {"sport": "Dec", "dport": "Dec", "len": "Dec", "sum": "Hex"},
    "icmp": {"type": "Dec", "code": "Dec", "sum": "Hex", "rest": "Hex"},
    "icmp6": {"type": "Dec", "code": "Dec", "sum": "Hex", "rest": "Hex"},
    "gre": {"c": "Dec", "k": "Dec", "s": "Dec", "version": "Dec", "proto": "Hex", "sum": "Hex", "key": "Dec", "seq": "Dec"},
    "vxlan": {"flags": "Hex", "vni": "Dec"},
}


def form_of(field):
    """The form of a field by its text, such as ipv4[0].id; None where the text names no field."""
    match = re.fullmatch(r"([a-z0-9]+)\[(?:[0-9]|1[0-5]|-[1-9]|-1[0-6])\]\.([a-z]+)", field)
    return FIELDS.get(match.group(1), {}).get(match.group(2)) if match else None
