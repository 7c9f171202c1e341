"""site.py FOLDER: an operator's way from captures to an answer, in networks of which it is known what is wrong.

Of the jobs in samples/site only the questions are taken: the port of VXLAN, the skew and the offset are those that
preflight names for this network.
"""

import json
import os
import re
import subprocess
import sys

TOP = os.path.join(os.path.dirname(os.path.abspath(__file__)), "..", "..")
SITE = os.path.join(TOP, "samples", "site")
SEEDS = (2, 3)
POINTS = ("edge", "leaf", "core", "exit")


class Wrong(Exception):
    """What is not as it should be."""


def demand(holds, what):
    if not holds:
        raise Wrong(what)


def ran(words, folder, status=0):
    ended = subprocess.run(words, cwd=folder, capture_output=True, text=True, check=False)
    demand(ended.returncode == status, f"{' '.join(words)}: status {ended.returncode}: {ended.stderr}")
    return ended.stdout


def preflight(folder, job):
    return ran([os.path.join(TOP, "tools", "preflight"), job], folder)


def found_by_preflight(folder):
    """What preflight says of the job that looks right: the port, the skews and the offsets."""
    said = preflight(folder, "plausible.json")
    port = re.search(r"^look at leaf: \d+ records are VXLAN to the UDP port (\d+)", said, re.M)
    demand(port, "preflight names no port of VXLAN")
    skews = dict(re.findall(r"^look at (\w+): .* a skew of (\d+) for this capture takes all of them in$", said, re.M))
    offsets = dict(re.findall(r"^look at (\w+): its clock is .* An offset of (-?\d+) sets it right$", said, re.M))
    for place, what in (("core", "id is that of a tunnel"), ("edge", "id is 0"), ("exit", r"\d+ packets begin at this exit")):
        demand(re.search(f"^look at {place}: {what}", said, re.M), f"preflight does not say of {place}: {what}")
    return int(port.group(1)), {name: int(skew) for name, skew in skews.items()}, {name: int(offset) for name, offset in offsets.items()}


def set_right(folder, name, port, skews, offsets):
    """Writes a job with these numbers, and has preflight find nothing but an identification of 0."""
    with open(os.path.join(SITE, name), encoding="utf-8") as file:
        job = json.load(file)
    job["vxlan_port"] = port
    for capture in job["captures"]:
        capture.pop("offset", None)
        capture.pop("skew", None)
        capture |= {"offset": offsets[capture["name"]]} if capture["name"] in offsets else {}
        capture |= {"skew": skews[capture["name"]]} if capture["name"] in skews else {}
    with open(os.path.join(folder, name), "w", encoding="utf-8") as file:
        json.dump(job, file)
    for line in preflight(folder, name).splitlines():
        demand(not line.startswith("look at") or " id is 0 in " in line, f"{name}: {line}")


def answers(folder, name):
    """The packets that are not ok, as `report` prints them, after a look at the C lines."""
    text = ran([os.environ["DSHARK"], "central", name], folder)
    with open(os.path.join(folder, name.replace(".json", ".report")), "w", encoding="ascii") as file:
        file.write(text)
    report = json.loads(ran([os.path.join(TOP, "tools", "report"), "--json", "--not-ok", "--job", name, file.name], folder))
    for capture in report["captures"]:
        demand(capture["late"] == 0 and capture["ending"] == "whole" and capture["accepted"], f"{name}: {capture}")
    return report["groups"]


def described(group):
    """A lost packet as planted.json tells of it: family, ports, numbers of TCP or the identification, and where it was."""
    key = group["key"]
    seen = group["at"] if group["verdict"] == "drop" else group["numbers"][0]
    return (key.get("id", 0), (key["sport"], key["dport"]), (key["seq"], key["ack"]) if 443 in (key["sport"], key["dport"]) else None, seen)


def planted_as(packet):
    """The same of what was planted: of IPv4 the last point that saw it, of IPv6 how many did."""
    seen = len(packet["seen"]) if packet["family"] == 6 else packet["seen"][-1]
    numbers = tuple(packet["numbers"]) if packet["numbers"] else None
    return (packet["id"], tuple(packet["ports"]), numbers, seen)


def play(folder, seed):
    ran([sys.executable, os.path.join(SITE, "make_site.py"), "--seed", str(seed), folder], TOP)
    with open(os.path.join(SITE, "plausible.json"), encoding="utf-8") as source, \
            open(os.path.join(folder, "plausible.json"), "w", encoding="utf-8") as file:
        file.write(source.read())
    with open(os.path.join(folder, "planted.json"), encoding="utf-8") as file:
        planted = json.load(file)
    false = ran([os.environ["DSHARK"], "central", "plausible.json"], folder).count(" drop ")
    demand(false > 500, f"the job that looks right makes up only {false} losses")
    port, skews, offsets = found_by_preflight(folder)
    demand(port == 8472 and set(skews) == {"leaf"} and set(offsets) == {"core"}, f"port {port}, skews {skews}, offsets {offsets}")
    behind = planted["behind"]["core"]
    demand(abs(offsets["core"] - behind) < 50_000, f"the clock of core is behind by {behind}, and the offset is {offsets['core']}")
    for name in ("forth.json", "back.json", "six.json", "nat.json"):
        set_right(folder, name, port, skews, offsets)
    lost = [described(group) for name in ("forth.json", "back.json", "six.json") for group in answers(folder, name)]
    wanted = [planted_as(packet) for packet in planted["lost"]]
    demand(len(wanted) == 10 and sorted(lost, key=str) == sorted(wanted, key=str), f"lost {lost}, planted {wanted}")
    kept = answers(folder, "nat.json")
    demand(len(kept) == 1 and kept[0]["numbers"] == [0, 1], f"the NAT: {kept}")
    demand(described({**kept[0], "verdict": "drop"})[:2] == planted_as(planted["kept"])[:2], f"the NAT: {kept}")
    members = ran([os.path.join(TOP, "tools", "report"), "--members", line_of(folder), "--job", "nat.json", "nat.report"], folder)
    demand([line.split()[0] for line in members.splitlines()] == list(POINTS), f"the packet that the NAT missed: {members}")


def line_of(folder):
    """The number of the line of the packet that the NAT missed."""
    with open(os.path.join(folder, "nat.report"), encoding="ascii") as file:
        (number,) = [number for number, line in enumerate(file, 1) if " rewrite " in line]
    return str(number)


def main():
    failed = 0
    for seed in SEEDS:
        folder = os.path.join(sys.argv[1], str(seed))
        os.makedirs(folder)
        try:
            play(folder, seed)
        except Wrong as fault:
            failed += 1
            print(f"FAILED the site of the seed {seed}: {fault}")
    print(f"tests/ends/site.sh: {len(SEEDS) - failed} passed, {failed} failed")
    sys.exit(failed != 0)


main()
