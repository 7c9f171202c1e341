"""shares.py PROGRAM FOLDER: compares the report that tools/merge-reports makes of shares with that of `dshark central`.

The jobs are those of the sample network, and 50 that are drawn from a seed: random traffic in one to five captures, in
files of both orders and units, with every kind of query, of every version, with and without a profile, a filter, and
clocks and skews of captures. Each is run in 2, 3 and 7 shares, some jobs side by side.
"""

import json
import os
import random
import subprocess
import sys
from concurrent.futures import ThreadPoolExecutor

HERE = os.path.dirname(os.path.abspath(__file__))
TOP = os.path.join(HERE, "..", "..")
NETWORK = os.path.join(TOP, "samples", "network")
sys.path.insert(0, NETWORK)
sys.dont_write_bytecode = True
from make_network import START, datagram, pcap, question, wrapped

PARTS = (2, 3, 7)
SEEDS = range(50)
WRAPPINGS = ("bare", "vxlan", "gre")
FILTERS = ("1", "id % 2 == 0 || ttl > 60", "ttl - 55", "not(id == 3) && capture != 1", "7 / (id - 4)", "time % 3000 > 700 && id >= 1")


def captures_of(draw):
    """Captures of random traffic, partly out of order, of few packets each of which has many copies."""
    made = {}
    for number in range(draw.randint(1, 5)):
        records, time = [], 0
        for _ in range(draw.randint(0, 60)):
            time += draw.randrange(2_000)
            early = draw.randrange(4_000) if draw.random() < 0.2 else 0
            frame = wrapped(draw.choice(WRAPPINGS), datagram(draw.randrange(9), draw.randint(50, 64), b"copy", draw.random() < 0.7), 40_000)
            records.append((START + max(0, time - early), frame if draw.random() > 0.05 else question("s1")))
        made[f"p{number}"] = pcap(records, draw.choice("<>"), draw.random() < 0.7)
    return made


def query_of(draw, names):
    rules = [{"var": "id", "how": "same"}, {"var": "ttl", "how": "less", "by": draw.randrange(3)},
             {"var": "src", "how": "table", "rows": [["10.0.0.1", "10.0.0.1"], ["10.0.0.2", draw.randrange(2**33)]]}]
    return draw.choice([
        {"kind": "all"}, {"kind": "loop", "hop": "ttl"}, {"kind": "drop", "exits": draw.sample(names, draw.randint(1, len(names)))},
        {"kind": "path", "allow": [" ".join(draw.choices([*names, "?", "*"], k=draw.randint(1, 4))) for _ in range(2)]},
        {"kind": "rewrite", "from": draw.choice(names), "to": draw.choice(names), "rules": draw.sample(rules, draw.randint(1, 3))},
        {"kind": "test", "expr": f"seen({names[0]}) * 100 + max(ttl) - at({names[-1]}, ttl)"}])


def job_of(draw, names):
    version = draw.randint(1, 3)
    captures = []
    for name in names:
        members = {"name": name, "file": name + ".pcap"}
        if version > 1 and draw.random() < 0.5:
            members |= {"offset": draw.randint(-3_000, 3_000), "skew": draw.randrange(3_000)}
        if version > 2 and draw.random() < 0.3:
            members["interface"] = draw.choice((0, 0, 1))
        captures.append(members)
    variables = [{"name": "id", "take": ["ipv4[-1].id"]}, {"name": "ttl", "take": ["ipv4[-1].ttl"]},
                 {"name": "src", "take": ["ipv4[-1].src"]}]
    return {"version": version, "captures": captures, "vars": variables, "filter": draw.choice(FILTERS),
            "key": draw.sample(["id", "src", "ttl"], draw.randint(1, 3)), "window": draw.choice((0, 1_500, 20_000, 3_600_000)),
            "skew": draw.choice((0, 900, 5_000)), "profile": draw.random() < 0.6, "query": query_of(draw, names)}


def printed(words, folder):
    ended = subprocess.run(words, cwd=folder, capture_output=True, text=True, check=False)
    if ended.returncode:
        raise SystemExit(f"FAILED {' '.join(words)}: status {ended.returncode}: {ended.stderr}")
    return ended.stdout


def wrong_parts(program, folder, job, room):
    """Of how many parts the merged report is another than that of the job."""
    whole = printed([program, "central", job], folder)
    wrong = 0
    for parts in PARTS:
        names = printed([os.path.join(TOP, "tools", "shard"), "--folder", room, job, str(parts)], folder).split()
        reports = []
        for name in names:
            reports.append(name.replace(".json", ".report"))
            with open(reports[-1], "w", encoding="ascii") as file:
                file.write(printed([program, "central", name], folder))
        random.Random(parts).shuffle(reports)
        merged = printed([os.path.join(TOP, "tools", "merge-reports"), *reports], folder)
        if merged != whole:
            wrong += 1
            print(f"FAILED {folder}/{job} in {parts} shares: the reports differ")
    return wrong


def main():
    program, folder = os.path.abspath(sys.argv[1]), os.path.abspath(sys.argv[2])
    os.environ["DSHARK"] = program
    runs = [(NETWORK, job, folder) for job in ("job.json", "drop.json", "clock.json", "interfaces.json")]
    kinds = set()
    for seed in SEEDS:
        draw = random.Random(seed)
        captures = captures_of(draw)
        job = job_of(draw, list(captures))
        kinds.add(job["query"]["kind"])
        place = os.path.join(folder, str(seed))
        os.makedirs(place)
        for name, octets in captures.items():
            with open(os.path.join(place, name + ".pcap"), "wb") as file:
                file.write(octets)
        with open(os.path.join(place, "job.json"), "w", encoding="utf-8") as file:
            json.dump(job, file)
        runs.append((place, "job.json", place))
    with ThreadPoolExecutor(os.cpu_count()) as pool:
        wrong = sum(pool.map(lambda run: wrong_parts(program, *run), runs))
    tried = len(runs) * len(PARTS)
    if len(kinds) != 6:
        wrong += 1
        print(f"FAILED: the seeds draw only {sorted(kinds)}")
    print(f"shares: {tried - wrong} passed, {wrong} failed")
    sys.exit(wrong != 0)


main()
