"""preflight.py FOLDER: has tools/preflight look at small captures of which it is known what is wrong. Each case has a job,
its files, the status, and all lines that begin with 'look at' or 'refused:', or with '  try:'."""

import gzip
import json
import os
import re
import shutil
import struct
import subprocess
import sys

TOP = os.path.join(os.path.dirname(os.path.abspath(__file__)), "..", "..")
sys.path.insert(0, os.path.join(TOP, "samples", "network"))
sys.dont_write_bytecode = True
from make_network import SECOND, START, UDP, datagram, ethernet, ipv4, pcap, pcapng, udp, wrapped

MILLISECOND = 1_000_000
ENDS = bytes((172, 16, 0, 1)), bytes((172, 16, 0, 2))


def job(names, key=("id",), query=None, variables=None, **members):
    takes = {"id": ["ipv4[-1].id"], "src": ["ipv4[-1].src"], **(variables or {})}
    return {"version": 1, "captures": [{"name": name, "file": name + ".pcap"} for name in names],
            "vars": [{"name": name, "take": take} for name, take in takes.items()], "key": list(key), "window": MILLISECOND,
            "skew": 0, "query": query or {"kind": "all"}, **members}


def records(numbers, ttl=64, after=0, forth=True, wrapping="bare"):
    return [(START + after + number * MILLISECOND, wrapped(wrapping, datagram(number + 1, ttl, b"copy", forth), 40_000)) for number in numbers]


def to_port(number, port):
    """A packet in VXLAN to another port."""
    inner = struct.pack(">II", 0x08000000, 300 << 8) + ethernet(datagram(number + 1, 63, b"copy"))
    return START + number * MILLISECOND, ethernet(ipv4(*ENDS, UDP, 7, 64, udp(49_152, port, inner)))


def refusals():
    """A file of each kind that is refused."""
    packets = [(START, datagram(7, 64, b"raw"))]
    cooked = [(START, struct.pack(">HHH8sH", 0, 1, 6, bytes(8), 0x0800) + datagram(7, 64, b"any"))]
    whole = pcap(records(range(3)))
    files = {"packed": gzip.compress(whole, mtime=0), "any": pcap(cooked, link=113), "loopback": pcap([(START, struct.pack("<I", 2) + packets[0][1])], link=0),
             "sums": pcap([(time, frame + bytes(4)) for time, frame in records(range(3))], link=0x54000001), "radio": pcap(packets, link=127),
             "text": b"no capture at all", "empty": b"", "damaged": whole[:40 + 42 + 8] + b"\xff" * 8 + whole[40 + 42 + 16:], "whole": whole}
    lines = [
        "refused: capture packed: packed.pcap: byte 0: magic: it is packed", "  try: gunzip -k packed.pcap",
        "refused: capture any: any.pcap: byte 20: link type 113: its packets are of the link type 113 (Linux cooked, as of the device any)",
        "  try: editcap -C 16 -L -T rawip -F nsecpcap any.pcap any-read.pcap",
        "refused: capture loopback: loopback.pcap: byte 20: link type 0: its packets are of the link type 0 (BSD loopback)",
        "  try: editcap -C 4 -L -T rawip -F nsecpcap loopback.pcap loopback-read.pcap",
        "refused: capture sums: sums.pcap: byte 20: link type 1409286145: its link type says how long the checksum of each frame is",
        "  try: editcap -F nsecpcap sums.pcap sums-read.pcap",
        "refused: capture radio: radio.pcap: byte 20: link type 127: its packets are of the link type 127 (radiotap)",
        "refused: capture text: text.pcap: byte 0: magic: it is neither libpcap nor pcapng as dshark reads them",
        "  try: editcap -F nsecpcap text.pcap text-read.pcap",
        "refused: capture empty: empty.pcap: byte 0: short header: it is empty",
        "refused: capture damaged: damaged.pcap: byte 94: record 1 length 4294967295: it is damaged",
        "  try: editcap -F nsecpcap damaged.pcap damaged-read.pcap",
        "refused: capture missing: missing.pcap: read: file 10: there is no such file in this folder",
        "refused: 9 of 10 captures; to look at: 0"]
    return job([*files, "missing"]), files, 1, lines


def look_at(*lines, refused=0, captures=2):
    return [*("look at " + line for line in lines), f"refused: {refused} of {captures} captures; to look at: {len(lines)}"]


def cases():
    yield "nothing", (job(["a", "b"]), {"a": pcap(records(range(9))), "b": pcap(records(range(9), 63, 1_000))}, 0, look_at())
    yield "refusals", refusals()
    short = pcap(records(range(20)))
    short = short[:24] + b"".join(short[24 + at:24 + at + 12] + struct.pack("<I", 400) + short[24 + at + 16:24 + at + 62] for at in range(0, 20 * 62, 62))
    yield "a short and a cut one", (job(["a", "b"]), {"a": short, "b": pcap(records(range(20), 63, 1_000))[:-1]}, 0, look_at(
        "a: of 20 records only 46 bytes or less were captured: an inner header beyond that is not seen, and [-1] then names an outer "
        "one. Record with whole headers", "b: the file ends inside a record, so its last packets are missing"))
    order = records([0, 1, 3, 2, 4])
    yield "out of order", (job(["a"]), {"a": pcap(order)}, 0, look_at(
        "a: 1 records are older than one before them, 1 by more than the skew of 0: a skew of 1000000 for this capture takes all of them in", captures=1))
    yield "a skew that is there", (job(["a"], skew=MILLISECOND), {"a": pcap(order)}, 0, look_at(captures=1))
    back = pcap([*records([0]), *[(time - 7_200 * SECOND, frame) for time, frame in records([1])]])
    yield "a clock set back", (job(["a"]), {"a": back}, 0, look_at(
        "a: 1 records are late, one by 7199999 ms, which no skew takes in: its clock was set back, or files were joined in the wrong order", captures=1))
    yield "another port", (job(["a", "b"]), {"a": pcap(records(range(20))), "b": pcap([to_port(number, 8472) for number in range(20)])}, 0, look_at(
        "b: 20 records are VXLAN to the UDP port 8472, which is read as payload: the job has vxlan_port 4789",
        "b: 19 records have the key of another one at most the window before: a packet that came back or is sent again, or a key that does not tell packets apart",
        "a: 1 of its 20 keys are in b, and no more in any other capture"))
    yield "times that do not meet", (job(["a", "b"]), {"a": pcap(records(range(9))), "b": pcap(records(range(9), 63, 5 * SECOND))}, 0, look_at(
        "b: it begins 4992 ms after a has ended: they were recorded at different times, or a clock is wrong by that much"))
    yield "no records of an interface", (
        {**job(["a"]), "version": 3, "captures": [{"name": "a", "file": "a.pcap", "interface": 1}]},
        {"a": pcapng([(1, 9, 0), (1, 9, 0)], [(0, *of) for of in records(range(3))])}, 0, look_at("a: it has no records of interface 1", captures=1))
    of_tcp = [(START + number * MILLISECOND, ethernet(ipv4(*ENDS, 6, number + 1, 64, struct.pack(">HHIIHHHH", 80, 81, 1, 2, 0x5000, 0, 0, 0))))
              for number in range(20)]
    yield "another field", (
        job(["a", "b"], variables={"port": ["tcp[-1].sport", "udp[-1].sport"]}),
        {"a": pcap(of_tcp), "b": pcap(records(range(20), 63, 1_000))}, 0, look_at(
            "a: port comes from tcp[-1].sport in 100% of the records that the job takes, and in b in 0%: are these the same packets, read to the same depth?"))
    rewritten = [(time, frame[:26] + bytes((203, 0, 113, 7)) + frame[30:]) for time, frame in records(range(20), 63, 1_000)]
    yield "a NAT", (job(["a", "b"], key=("id", "src")), {"a": pcap(records(range(20))), "b": pcap(rewritten)}, 0, look_at(
        "a: 0 of its 20 keys are in b, and no more in any other capture; without src 20 of 20 are in b: src is rewritten on the way",
        "b: 0 of its 20 keys are in a, and no more in any other capture; without src 20 of 20 are in a: src is rewritten on the way"))
    forth, answers = range(0, 20, 2), range(1, 20, 2)
    ahead = [*records(forth, 63, 5_000 + 70_000), *records(answers, 64, 70_000, False)]
    other = [*records(forth), *records(answers, 63, 5_000, False)]
    both = {"a": pcap(sorted(other)), "b": pcap(sorted(ahead))}
    yield "a clock that is ahead", (job(["a", "b"]), both, 0, look_at(
        "b: its clock is ahead by 0.065 ms to 0.075 ms: by the TTL packets arrive before they leave. An offset of -70000 sets it right"))
    right = {**job(["a", "b"]), "version": 2}
    right["captures"][1] |= {"offset": -70_000}
    yield "its offset", (right, both, 0, look_at())
    yield "an exit where packets begin", ({**right, "query": {"kind": "drop", "exits": ["b"]}}, both, 0, look_at(
        "b: 10 packets begin at this exit, by their TTL, so they count as arrived wherever they are lost: leave that direction out by "
        "the filter, and ask for it by a job of its own"))
    yield "one direction", ({**job(["a", "b"])}, {"a": pcap(records(forth)), "b": pcap(records(forth, 63, -9_000))}, 0, look_at(
        "b: its clock is behind by at least 0.009 ms: by the TTL packets arrive before they leave. An offset of 9000 sets it right"))


def main():
    passed = failed = 0
    for name, (declared, files, status, lines) in cases():
        folder = os.path.join(sys.argv[1], re.sub(r"\W", "-", name))
        os.makedirs(folder)
        for file, octets in files.items():
            with open(os.path.join(folder, file + ".pcap"), "wb") as out:
                out.write(octets)
        with open(os.path.join(folder, "job.json"), "w", encoding="utf-8") as out:
            json.dump(declared, out)
        ended = subprocess.run([os.path.join(TOP, "tools", "preflight"), "job.json"], cwd=folder, capture_output=True, text=True, check=False)
        told = [line for line in ended.stdout.splitlines() if line.startswith(("look at", "refused:", "  try:"))]
        fits = told == lines
        passed, failed = passed + (fits and ended.returncode == status), failed + (not fits or ended.returncode != status)
        if not fits or ended.returncode != status:
            print(f"FAILED {name}: status {ended.returncode}, expected {status}; {ended.stderr}")
            print("\n".join(f"  {line}" for line in told))
        if name == "refusals" and shutil.which("editcap"):
            for line in (line for line in told if line.startswith("  try: editcap") and "-C" in line):
                *_, made = line.split()
                subprocess.run(line.split()[1:], cwd=folder, check=True, stdout=subprocess.DEVNULL, stderr=subprocess.DEVNULL)
                ended = subprocess.run([os.environ["DSHARK"], "stack", made], cwd=folder, capture_output=True, text=True, check=False)
                passed, failed = passed + ("ipv4[0..20]" in ended.stdout), failed + ("ipv4[0..20]" not in ended.stdout)
    print(f"cases: {passed} passed, {failed} failed")
    sys.exit(failed != 0)


main()
