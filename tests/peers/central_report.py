"""central_report.py JOB: prints the report of a job, made anew from tshark's fields.

The file names in the job are relative to the current folder, as for `dshark central`. It knows the innermost or
outermost IPv4 identification, TTL, source and destination as variables, filters whose value is defined, the offset, the
skew and the interface of a capture, and the queries all, loop and drop. It is written as plainly as it can be: every
group is looked for in the list of all accepted records.
"""

import json
import re
import subprocess
import sys
from collections import namedtuple

FIELDS = {"id": "ip.id", "ttl": "ip.ttl", "src": "ip.src", "dst": "ip.dst"}
INNERMOST, OUTERMOST = "l", "f"
ETHERNET, RAW_IP = "1", "7"

# A copy of a packet; copies are ordered by time, capture number and record number.
Copy = namedtuple("Copy", "time capture record values")


def number_of(text):
    """The number that tshark prints: decimal, hexadecimal, or an address."""
    if "." in text:
        total = 0
        for part in text.split("."):
            total = total * 256 + int(part)
        return total
    return int(text, 0)


def nanoseconds(text):
    seconds, fraction = text.split(".")
    return int(seconds) * 10**9 + int(fraction.ljust(9, "0"))


def field_of(variable):
    """tshark's name of a variable's field, and whether its first or last occurrence counts."""
    (text,) = variable["take"]
    place, name = text.removeprefix("ipv4[").split("].")
    return FIELDS[name], {"-1": INNERMOST, "0": OUTERMOST}[place]


def read(file, interface, variables):
    """Time and values of each record of the interface, or of all where it is None: the values where all are there, else
    None; and whether the file is cut."""
    fields = [field_of(variable) for variable in variables]
    (occurrence,) = {which for _, which in fields}
    words = ["tshark", "-r", file, "-T", "fields", "-E", "occurrence=" + occurrence]
    for field in ["frame.interface_id", "frame.encap_type", "frame.time_epoch"] + [field for field, _ in fields]:
        words += ["-e", field]
    ran = subprocess.run(words, capture_output=True, text=True, check=False)
    is_cut = "cut short in the middle of a packet" in ran.stderr
    if ran.returncode != 0 and not is_cut:
        sys.exit(f"central_report.py: tshark: {ran.stderr}")
    rows = []
    for line in ran.stdout.splitlines():
        number, link, time, *values = line.split("\t")
        if interface is None or int(number or 0) == interface:
            is_there = all(values) and link in (ETHERNET, RAW_IP)
            rows.append((nanoseconds(time), [number_of(value) for value in values] if is_there else None))
    return rows, is_cut


def filter_of(job):
    """The filter as a function of a record's time, capture and values: the expression in the words of Python."""
    words = re.sub(r"\d+\.\d+\.\d+\.\d+", lambda address: str(number_of(address.group())), job.get("filter", "1"))
    code = compile(words.replace("&&", " and ").replace("||", " or "), "filter", "eval")
    names = [variable["name"] for variable in job["vars"]]
    return lambda time, capture, values: eval(code, {"time": time, "capture": capture, **dict(zip(names, values))}) != 0


def sorted_out(rows, capture, offset, skew, keeps):
    """The accepted copies of a capture, by its clock set right, and how many records are unmatched and late."""
    accepted, unmatched, late, newest = [], 0, 0, 0
    for record, (time, values) in enumerate(rows):
        time = max(0, time + offset)
        if values is None or not keeps(time, capture, values):
            unmatched += 1
        elif time + skew < newest:
            late += 1
        else:
            accepted.append(Copy(time, capture, record, values))
        newest = max(newest, time)
    return accepted, unmatched, late


def groups_of(copies, key, window):
    """The groups, in the order of their firsts: each time the first copy left, with all of its key in its window."""
    left = sorted(copies)
    groups = []
    while left:
        first = left[0]
        group = [copy for copy in left if copy.time <= first.time + window
                 and all(copy.values[k] == first.values[k] for k in key)]
        groups.append(group)
        left = [copy for copy in left if copy not in group]
    return groups


def verdict(query, group, captures, variables):
    if query["kind"] == "loop":
        hop = variables.index(query["hop"])
        for j, low in enumerate(group):
            for high in group[:j]:
                if high.capture == low.capture and high.values[hop] > low.values[hop]:
                    return f"loop {captures[low.capture]} {high.values[hop]} {low.values[hop]}"
    elif query["kind"] == "drop":
        if not any(captures[copy.capture] in query["exits"] for copy in group):
            return f"drop {captures[group[-1].capture]}"
    else:
        assert query["kind"] == "all"
    return "ok"


def delay_lines(groups, captures):
    delays = {}
    for group in groups:
        for before, after in zip(group, group[1:]):
            delays.setdefault((before.capture, after.capture), []).append(after.time - before.time)
    for (start, end), times in sorted(delays.items()):
        digits = [len(f"{time:b}") if time else 0 for time in times]
        classes = ",".join(f"{digit}:{digits.count(digit)}" for digit in sorted(set(digits)))
        yield (f"P {captures[start]} {captures[end]} count={len(times)} sum={sum(times)} least={min(times)}"
               f" greatest={max(times)} classes={classes}")


def report(job):
    """The lines of the report."""
    captures = [capture["name"] for capture in job["captures"]]
    variables = [variable["name"] for variable in job["vars"]]
    key = [variables.index(name) for name in job["key"]]
    keeps = filter_of(job)
    copies, capture_lines = [], []
    for capture, declared in enumerate(job["captures"]):
        rows, is_cut = read(declared["file"], declared.get("interface"), job["vars"])
        skew = declared.get("skew", job["skew"])
        accepted, unmatched, late = sorted_out(rows, capture, declared.get("offset", 0), skew, keeps)
        copies += accepted
        capture_lines.append(f"C {captures[capture]} records={len(rows)} unmatched={unmatched} late={late}"
                             f" accepted={len(accepted)} {'cut' if is_cut else 'whole'}")
    groups = groups_of(copies, key, job["window"])
    for group in groups:
        first = group[0]
        keys = ",".join(str(first.values[k]) for k in key)
        yield (f"G {first.time} {captures[first.capture]} {first.record} key={keys} n={len(group)}"
               f" {verdict(job['query'], group, captures, variables)}")
    if job.get("profile", False):
        yield from delay_lines(groups, captures)
    yield from capture_lines
    yield f"E groups={len(groups)} summaries={len(copies)}"


def main():
    with open(sys.argv[1], encoding="utf-8") as file:
        job = json.load(file)
    for line in report(job):
        print(line)


if __name__ == "__main__":
    main()
