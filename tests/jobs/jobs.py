"""Compares `dshark check` with the examples and the refused jobs. Words: the program, and an empty folder."""

import glob
import json
import re
import subprocess
import sys


def wide(value):
    """A wide number as the canonical form writes it."""
    if isinstance(value, str):
        if value.startswith("0x"):
            value = int(value, 16)
        elif "." in value:
            first, second, third, fourth = (int(part) for part in value.split("."))
            value = ((first * 256 + second) * 256 + third) * 256 + fourth
        else:
            value = int(value)
    return value if value < 2**64 else str(value)


def canonical(job):
    """The job with all that was left out, compact, its members in byte order."""
    job = {"vxlan_port": 4789, "filter": "1", "profile": False, **job}
    if job["version"] > 1:
        job["captures"] = [{"offset": 0, "skew": job["skew"], **capture} for capture in job["captures"]]
    query = dict(job["query"])
    if "exits" in query:
        captures = [capture["name"] for capture in job["captures"]]
        query["exits"] = sorted(query["exits"], key=captures.index)
    if "allow" in query:
        query["allow"] = [" ".join(pattern.split()) for pattern in query["allow"]]
    if "rules" in query:
        query["rules"] = [
            {
                **rule,
                **({"by": wide(rule["by"])} if "by" in rule else {}),
                **({"rows": [[wide(n) for n in row] for row in rule["rows"]]} if "rows" in rule else {}),
            }
            for rule in query["rules"]
        ]
    return json.dumps({**job, "query": query}, sort_keys=True, separators=(",", ":"), ensure_ascii=False) + "\n"


def main():
    program, room = sys.argv[1:]
    name = f"{room}/job.json"
    counts = {True: 0, False: 0}

    def check(text, status, out, err):
        with open(name, "w", encoding="utf-8") as file:
            file.write(text)
        ended = subprocess.run([program, "check", name], capture_output=True, check=False)
        got = (ended.returncode, ended.stdout.decode(), ended.stderr.decode())
        counts[got == (status, out, err)] += 1
        if got != (status, out, err):
            print(f"FAILED {text[:300]}\n  expected {(status, out, err)}\n  was      {got}")

    with open("docs/JOBS.md", encoding="utf-8") as file:
        accepted = re.findall(r"```json\n(.*?)```", file.read(), re.S)
    for sample in sorted(glob.glob("samples/**/*.json", recursive=True)):
        with open(sample, encoding="utf-8") as file:
            accepted.append(file.read())
    with open("tests/jobs/accepted.txt", encoding="utf-8") as file:
        accepted += [line for line in file if not line.startswith("#")]
    for text in accepted:
        check(text, 0, canonical(json.loads(text)), "")
        check(canonical(json.loads(text)), 0, canonical(json.loads(text)), "")
    with open("tests/jobs/refused.txt", encoding="utf-8") as file:
        for line in file:
            if not line.startswith("#"):
                fault, _, text = line.rstrip("\n").split("\t")
                check(text, 1, "", f"dshark: job: {fault}\n")
    print(f"tests/jobs/jobs.sh: {counts[True]} passed, {counts[False]} failed")
    sys.exit(counts[False] != 0)


main()
