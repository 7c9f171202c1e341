"""stream.py PROGRAM FOLDER: plays two capture points that go on writing while `dshark run` reads them.

Each writes its capture into a pipe, record by record, with a pause between two packets. The first answer has to come
while less than half of the packets were written, and the report has to be whole at the end.
"""

import json
import os
import struct
import subprocess
import sys
import threading
import time

RECORDS = 400  # packets, each of which both points see
PAUSE = 0.005  # seconds between two packets

HEADER = struct.pack("<IHHiIII", 0xA1B2C3D4, 2, 4, 0, 0, 65535, 1)
PACKET = bytes.fromhex("020000000002020000000001" "0800" "4500001c000000004011000000000000" "0000000004d2003500080000")


def record(second, micros, number, ttl):
    packet = bytearray(PACKET)
    packet[18:20] = struct.pack(">H", number)
    packet[22] = ttl
    return struct.pack("<IIII", second, micros, len(packet), len(packet)) + bytes(packet)


def main(program, room):
    captures = [{"name": name, "file": name} for name in ("s1", "s2")]
    job = {"version": 1, "captures": captures, "vars": [{"name": "id", "take": ["ipv4[-1].id"]}, {"name": "ttl", "take": ["ipv4[-1].ttl"]}],
           "key": ["id"], "window": 1000000, "skew": 0, "query": {"kind": "loop", "hop": "ttl"}}
    with open(f"{room}/job.json", "w", encoding="utf-8") as file:
        json.dump(job, file)
    for capture in captures:
        os.mkfifo(f"{room}/{capture['file']}")
    run = subprocess.Popen([os.path.abspath(program), "run", "job.json"], cwd=room, stdout=subprocess.PIPE)
    pipes = [open(f"{room}/{capture['file']}", "wb", buffering=0) for capture in captures]
    for pipe in pipes:
        pipe.write(HEADER)
    printed, written, at_first = [], 0, []

    def read():
        for line in run.stdout:
            if not printed:
                at_first.append(written)
            printed.append(line.decode().rstrip("\n"))

    reader = threading.Thread(target=read)
    reader.start()
    for number in range(RECORDS):
        pipes[0].write(record(number + 1, 0, number, 64))
        pipes[1].write(record(number + 1, 10, number, 63))
        written = number + 1
        time.sleep(PAUSE)
    for pipe in pipes:
        pipe.close()
    reader.join()
    expected = [f"G {number + 1}000000000 s1 {number} key={number} n=2 ok" for number in range(RECORDS)]
    expected += [f"C {capture['name']} records={RECORDS} unmatched=0 late=0 accepted={RECORDS} whole" for capture in captures]
    expected += [f"E groups={RECORDS} summaries={2 * RECORDS}"]
    if run.wait() != 0 or printed != expected:
        return f"status {run.returncode}, {len(printed)} lines, expected {len(expected)}"
    return None if at_first[0] < RECORDS / 2 else f"the first answer came after {at_first[0]} of {RECORDS} packets"


if __name__ == "__main__":
    wrong = main(sys.argv[1], sys.argv[2])
    print(f"FAILED answers come while captures are written: {wrong}" if wrong else "tests/ends/stream.sh: 1 passed, 0 failed")
    sys.exit(1 if wrong else 0)
