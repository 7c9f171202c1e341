"""central_variations.py FOLDER: makes a folder for each of some jobs on small networks, with job.json and its captures.

Packets and files are made by samples/network/make_network.py.
"""

import json
import os
import random
import sys

sys.path.insert(0, os.path.join(os.path.dirname(os.path.abspath(__file__)), "../../samples/network"))
sys.dont_write_bytecode = True
from make_network import START, SECOND, captured, datagram, ethernet, ipv4, pcap, pcapng, question, udp, wrapped

WRAPPINGS = ("bare", "vxlan", "gre")
VARIABLES = [{"name": "id", "take": ["ipv4[-1].id"]}, {"name": "ttl", "take": ["ipv4[-1].ttl"]}]
LOOP = {"kind": "loop", "hop": "ttl"}


def job(captures, query=LOOP, window=1_000_000, skew=0, profile=True, key=("id",), clocks=None):
    """A job; with `clocks`, which has further members of some captures, it is one of version 2."""
    declared = [{"name": name, "file": name + ".pcap", **(clocks or {}).get(name, {})} for name in captures]
    rest = {"key": list(key), "window": window, "skew": skew, "profile": profile, "query": query}
    return {"version": 1 if clocks is None else 2, "captures": declared, "vars": VARIABLES, **rest}


def files(records, **form):
    return {name: pcap(of, **form) for name, of in records.items()}


def copy(time, identification, ttl=64, wrapping="bare"):
    """A record: its time in nanoseconds from the start, and its frame."""
    return START + time, wrapped(wrapping, datagram(identification, ttl, b"copy"), 40_000)


def cut():
    """Files that end inside the last record's bytes, one byte into them, inside its header, and after its header."""
    whole = files(captured())
    last = {name: 16 + len(of[-1][1]) for name, of in captured().items()}
    less = {"s1": 10, "s2": last["s2"] - 17, "s3": last["s3"] - 9, "s4": last["s4"] - 16}
    return job(whole, window=10_000_000), {name: of[:-less[name]] for name, of in whole.items()}


def equal_times():
    """Copies at one time, in several captures and in one: they stand in the order of captures, then of records."""
    records = {
        "s1": [copy(0, 7, 64), copy(0, 8, 64), copy(0, 7, 63), copy(5, 9, 60)],
        "s2": [copy(0, 8, 63, "vxlan"), copy(0, 7, 62, "gre"), copy(0, 9, 61), copy(5, 9, 59)],
        "s3": [copy(0, 9, 64), copy(0, 7, 64)],
    }
    return job(records), files(records)


def window_ends():
    """Copies at the end of the window and a nanosecond after it, where another group begins, twice."""
    records = {
        "s1": [copy(0, 7), copy(1_000_001, 7), copy(2_000_001, 7, 63)],
        "s2": [copy(1_000_000, 7, 63), copy(2_000_002, 7)],
    }
    return job(records), files(records)


def no_window():
    """A window of 0: copies at one time alone are a group."""
    records = {"s1": [copy(0, 7), copy(0, 7, 63), copy(1, 7)], "s2": [copy(0, 7), copy(1, 7)]}
    return job(records, window=0), files(records)


def late():
    """Records out of order: by the skew, by a nanosecond more, and after a newest that has no identification."""
    records = {
        "s1": [copy(1_000, 7), copy(500, 8), copy(499, 9), (START + 2_000, question("s1")), copy(1_499, 10), copy(1_500, 11)],
        "s2": [copy(0, 9), copy(900, 7, 60), (START, question("s1")), copy(400, 8, 60)],
    }
    return job(records, skew=500), files(records)


def empty():
    """A capture without records, and one without IPv4."""
    return job(["s1", "s2"]), files({"s1": [], "s2": [(START, question("s1"))]})


def raw_ip():
    """Packets without Ethernet, beside the same on Ethernet."""
    packets = [(START + k * 1_000, datagram(k % 7, 64 - k, b"raw")) for k in range(20)]
    frames = [(time + 300, ethernet(packet)) for time, packet in packets]
    return job(["raw", "eth"]), {"raw": pcap(packets, link=101), "eth": pcap(frames)}


def odd_inner():
    """VXLAN that carries ARP, and IPv4 in IPv4: the last IPv4 header counts."""
    arp = bytes.fromhex("0800000000006400") + question("s1")
    in_vxlan = ethernet(ipv4(bytes(4), bytes(4), 17, 77, 9, udp(1, 4789, arp)))
    twice = ethernet(ipv4(bytes(4), bytes(4), 4, 78, 9, datagram(77, 8, b"inner")))
    records = {"s1": [(START, in_vxlan), (START + 10, twice)], "s2": [copy(5, 78)]}
    return job(records), files(records)


def drops():
    """Two exits, of which packets pass none, one or both; no delays are asked for."""
    records = {"a": [], "b": [], "c": [], "d": []}
    for k in range(16):
        for bit, name in enumerate(records):
            if k >> bit & 1:
                records[name].append(copy(1_000 * k + 10 * bit, k, 64 - bit))
    return job(records, {"kind": "drop", "exits": ["d", "b"]}, profile=False), files(records)


def all_of_network(query, **form):
    return job(captured(), query, window=10_000_000), files(captured(), **form)


def traffic(seed, query, **asked):
    """Random copies of few identifications in four captures, wrapped in turn, a little out of order."""
    draw = random.Random(seed)
    records = {f"point_{k}": [] for k in range(4)}
    for number in range(300):
        time = number * 400 + draw.randrange(3) * draw.randrange(2_000)
        record = copy(time, draw.randrange(12), draw.randrange(50, 65), WRAPPINGS[number % 3])
        records[draw.choice(list(records))].append(record)
    made = {name: pcap(of, draw.choice("<>"), draw.random() < 0.5) for name, of in records.items()}
    return job(records, query, **asked), made


def hours():
    """Delays up to the longest window, an hour."""
    records = {"s1": [copy(0, 7), copy(0, 8)], "s2": [copy(3_600 * SECOND, 7), copy(3_600 * SECOND + 1, 8)]}
    return job(records, window=3_600 * SECOND), files(records)


def clocks_by(offset):
    """Two copies, the second a whole window later, by a clock with this offset."""
    records = {"s1": [copy(0, 7)], "s2": [copy(1_000_000, 7, 63)], "s3": []}
    return job(records, clocks={"s2": {"offset": offset}}), files(records)


def clock_before_all_times():
    """Times that an offset would take below 0, and those right after; what is late is so by the times that remain."""
    records = [(time, wrapped("bare", datagram(7 + time % 3, 64, b"copy"), 40_000))
               for time in (SECOND, 3_600 * SECOND, 3_600 * SECOND + 5, 2 * SECOND, 3_600 * SECOND + 2, 3_600 * SECOND + 5)]
    captures = {"s1": records, "s2": records[:4]}
    clocks = {"s1": {"offset": -3_600 * SECOND, "skew": 3}, "s2": {"offset": 1 - 3_600 * SECOND}}
    return job(captures, clocks=clocks, skew=6), files(captures)


def own_skews():
    """Each capture with the same records out of order, under skews of its own and under that of the job."""
    records = [copy(1_000, 1), copy(0, 2), copy(999, 3), copy(1, 4), copy(500, 5), copy(499, 6)]
    captures = {name: records for name in ("none", "least", "some", "more", "most")}
    skews = {"none": 0, "least": 1, "some": 999, "most": 3_600 * SECOND}
    clocks = {name: {"skew": skew} for name, skew in skews.items()}
    return job(captures, clocks={**clocks, "least": {"skew": 1, "offset": 77}}, skew=500), files(captures)


def filter_by_time():
    """A filter on the time, which is the one by the clock that is set right."""
    declared, made = all_of_network({"kind": "all"})
    clocks = {"s1": -100_000, "s3": 3 * SECOND, "s4": 100_000}
    captures = [{**capture, "offset": clocks.get(capture["name"], 0)} for capture in declared["captures"]]
    words = f"time >= {START + 100_000} && capture != 2 || time > {START + 3 * SECOND + 400_000}"
    return {**declared, "version": 2, "captures": captures, "filter": words}, made


def traffic_by_clocks(seed, query, **asked):
    """Random traffic whose captures have clocks and skews of their own."""
    draw = random.Random(seed)
    clocks = {f"point_{k}": {"offset": draw.randrange(-40_000, 40_000), "skew": draw.randrange(3_000)} for k in range(3)}
    return traffic(seed, query, clocks=clocks, **asked)


def interfaces(job_of_two, sections):
    """A job of version 3 on one file with these sections: its interfaces 0 and 1, one that it has not, and all of it."""
    parts = {"first": 0, "second": 1, "third": 2, "all": None}
    members = {name: {"file": "all.pcapng", **({} if number is None else {"interface": number})} for name, number in parts.items()}
    return {**job(parts, clocks=members, **job_of_two), "version": 3}, {"all.pcapng": b"".join(sections)}


def two_of_each():
    """Copies on two interfaces in turn, of which the second is a little behind."""
    return [(k % 2, START + 1_000 * k, wrapped(WRAPPINGS[k % 3], datagram(k // 4, 64 - k % 4, b"copy"), k)) for k in range(40)]


def units(*resolutions):
    """Two interfaces with these resolutions, whose times begin at the start of the traffic."""
    offset = START // SECOND
    return interfaces({}, [pcapng([(1, resolution, offset) for resolution in resolutions], two_of_each())])


def sections():
    """Sections of both orders, in which the numbers of interfaces begin anew, on Ethernet, raw IP and another link."""
    raw = [(number, time, frame[14:]) for number, time, frame in two_of_each()]
    later = [(number, time + 250, frame) for number, time, frame in two_of_each()]
    return interfaces({"skew": 60_000}, [
        pcapng([(1, 9, 0), (1, 9, 0)], two_of_each()), pcapng([(101, 9, 0), (0, 9, 0)], raw, ">"),
        pcapng([(1, 9, -5)], []), pcapng([(1, 6, -5), (1, 9, 5)], later, "<")])


def cut_pcapng():
    """A file that ends inside the padding of its last packet, before the statistics of both interfaces."""
    whole = pcapng([(1, 9, 0), (1, 9, 0)], two_of_each())
    return interfaces({}, [whole[:-2 * 40 - 5]])


def interfaces_of_libpcap():
    """A libpcap file has the interface 0 and no other."""
    records = {"none": [copy(0, 7)], "zero": [copy(1, 7)], "one": [copy(2, 7)]}
    members = {"zero": {"interface": 0}, "one": {"interface": 1, "offset": 7}}
    return {**job(records, clocks=members), "version": 3}, files(records)


VARIATIONS = {
    "cut": cut(),
    "equal-times": equal_times(),
    "window-ends": window_ends(),
    "no-window": no_window(),
    "late": late(),
    "empty": empty(),
    "raw-ip": raw_ip(),
    "odd-inner": odd_inner(),
    "drops": drops(),
    "hours": hours(),
    "microseconds": all_of_network(LOOP, nanoseconds=False),
    "big-endian": all_of_network({"kind": "all"}, order=">"),
    "big-endian-microseconds": all_of_network({"kind": "drop", "exits": ["s1"]}, order=">", nanoseconds=False),
    "loops-of-traffic": traffic(1, LOOP, window=20_000, skew=2_000),
    "drops-of-traffic": traffic(2, {"kind": "drop", "exits": ["point_2"]}, window=9_000, skew=100),
    "no-skew-in-traffic": traffic(3, LOOP, window=100_000),
    "clock-right": clocks_by(0),
    "clock-ahead": clocks_by(-1),
    "clock-behind": clocks_by(1),
    "clock-before-all-times": clock_before_all_times(),
    "own-skews": own_skews(),
    "filter-by-time": filter_by_time(),
    "clocks-in-traffic": traffic_by_clocks(5, LOOP, window=20_000, skew=500),
    "drops-by-clocks": traffic_by_clocks(6, {"kind": "drop", "exits": ["point_1"]}, window=30_000),
    "interfaces": units(9, 9),
    "interfaces-in-microseconds": units(6, 9),
    "interfaces-in-milliseconds": units(3, 0),
    "interfaces-of-binary-units": units(128 + 30, 128 + 20),
    "sections": sections(),
    "cut-pcapng": cut_pcapng(),
    "interfaces-of-libpcap": interfaces_of_libpcap(),
    "two-keys-in-traffic": traffic(4, {"kind": "all"}, window=3_600_000, skew=60_000, key=("ttl", "id")),
}


def main():
    for name, (declared, captures) in VARIATIONS.items():
        folder = os.path.join(sys.argv[1], name)
        os.makedirs(folder)
        with open(os.path.join(folder, "job.json"), "w", encoding="utf-8") as file:
            json.dump(declared, file, indent=2)
        for capture, octets in captures.items():
            with open(os.path.join(folder, capture if "." in capture else capture + ".pcap"), "wb") as file:
                file.write(octets)


if __name__ == "__main__":
    main()
