"""Reads the captures of a job for the tools beside this module, by dshark: the headers of each record, its fields, and
the key of each record that the job takes.
"""

import json
import os
import subprocess
import sys
import tempfile
from collections import namedtuple

from captures import format_of, front, packets
from program import Refused, alone, printed, skew_of
from reports import NoReport, Report

# A record that the job takes: its time by the clock of the capture that is set right, its number, its key, and how many
# records have that key at that time.
Taken = namedtuple("Taken", "time record key copies")
NETWORK = ("ipv4", "ipv6")


def report_of(program, job, keeps=lambda group: True):
    """The report of a job, with the groups of which `keeps` is true. It is read as it is printed."""
    with tempfile.NamedTemporaryFile("w", suffix=".json") as file, tempfile.TemporaryFile() as line:
        json.dump(job, file)
        file.flush()
        with subprocess.Popen([program, "central", file.name], stdout=subprocess.PIPE, stderr=line) as running:
            try:
                report, fault = Report(running.stdout, keeps), None
            except NoReport as wrong:
                report, fault = None, f"line {wrong.args[0]} of the report: {wrong.args[1]}"
        line.seek(0)
        if running.returncode or fault:
            raise Refused(line.read().decode().strip().removeprefix("dshark: ") or fault)
        return report


class Point:
    """A capture of a job. Of a long one only the front is looked at, as a file in `room`."""

    def __init__(self, program, job, number, room, most):
        self.program, self.job, self.capture = program, job, job["captures"][number]
        self.name, self.file, self.interface = self.capture["name"], self.capture["file"], self.capture.get("interface")
        self.port, self.skew = str(job["vxlan_port"]), skew_of(job, self.capture)
        self.path, self.is_front, self.fields = self.file, False, {}
        if format_of(self.file) == "no capture":
            printed(program, "stack", self.file)  # it is refused
        copy = os.path.join(room, f"{number}.front")
        self.is_front = front(self.file, copy, most)
        self.path = copy if self.is_front else self.file
        self.read()

    def stack(self, *words, port=None):
        """What is printed of each record of the interface, after its number and time, and the last line."""
        lines = printed(self.program, "stack", self.path, "--port", port or self.port, *words)
        parts = [line.split(" ", 2)[1:] for line in lines[:-1]]
        if len(parts) != self.count:
            raise Refused(f"dshark finds {len(parts)} packets, and this program {self.count}")
        return [parts[record] for record in self.places], lines[-1]

    def read(self):
        lengths = list(packets(self.path))
        self.count = len(lengths)
        self.places = [place for place, (of, _, _) in enumerate(lengths) if self.interface is None or of == self.interface]
        self.short = sum(lengths[place][1] < lengths[place][2] for place in self.places)
        self.snaplen = max((lengths[place][1] for place in self.places if lengths[place][1] < lengths[place][2]), default=0)
        parts, self.ending = self.stack()
        self.times = [max(0, int(part[0]) + self.capture.get("offset", 0)) for part in parts]
        self.kinds, known = [], {}  # records with the same kinds share one list of them
        for part in parts:
            kinds = tuple(header.split("[")[0] for header in part[1].split()) if len(part) > 1 else ()
            self.kinds.append(known.setdefault(kinds, kinds))

    def field(self, name):
        """The value of a field in each record, as dshark prints it, or None."""
        if name not in self.fields:
            self.fields[name] = [sys.intern(part[1]) if part[1] != "none" else None for part in self.stack("--field", name)[0]]
        return self.fields[name]

    def hop(self, record):
        """The TTL or hop limit of the deepest header of IPv4 or IPv6, or None."""
        deepest = next((of for of in reversed(self.kinds[record]) if of in NETWORK), None)
        value = deepest and self.field({"ipv4": "ipv4[-1].ttl", "ipv6": "ipv6[-1].hops"}[deepest])[record]
        return int(value) if value else None

    def take(self, fields):
        """The value of a variable in each record with the field that it comes from, or None where it is missing."""
        columns = [(field, self.field(field)) for field in fields]
        return [next(((column[record], field) for field, column in columns if column[record] is not None), None)
                for record in range(len(self.times))]

    def is_of_tunnel(self, record, field):
        """Whether a header of IPv4 or IPv6 lies deeper in the record than the one that has this field."""
        kind, index = field.split("]")[0].split("[")
        places = [place for place, of in enumerate(self.kinds[record]) if of == kind]
        return any(of in NETWORK for of in self.kinds[record][places[int(index)] + 1:])

    def out_of_order(self):
        """How many records are older than one before them, and the least skew that takes all of them in."""
        newest, older, skew = 0, 0, 0
        for time in self.times:
            older += time < newest
            skew, newest = max(skew, newest - time), max(newest, time)
        return older, skew

    def late(self):
        """How many records are older by more than the skew, whether the job takes them or not."""
        newest, late = 0, 0
        for time in self.times:
            late, newest = late + (time + self.skew < newest), max(newest, time)
        return late

    def taken(self):
        """The records that the job takes, if none is late; of those with one key at one time only the first."""
        job = alone(self.job, {**self.capture, "file": os.path.abspath(self.path)})
        groups = report_of(self.program, job).kept
        return [Taken(group.time, group.record, tuple(group.key), group.members) for group in groups]
