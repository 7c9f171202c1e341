"""operating.py PROGRAM FOLDER: runs the commands of docs/OPERATING.md in a copy of the samples in FOLDER.

A command stands after '$ ' in a block that is set in, and what it prints stands below it, on either stream; a line '..'
stands for any number of lines. A cd holds for the commands after it. Any other block of that kind whose lines begin
with '{' stands in samples/site/forth.json; the job in the fences is samples/site/plausible.json; and the right column of
the table of filters has expressions that dshark accepts.
"""

import glob
import json
import os
import re
import shutil
import subprocess
import sys

DOCUMENT, SITE = "docs/OPERATING.md", "samples/site"
TOOLS = ("editcap", "tshark", "tcpdump", "parallel", "capinfos")
VARIABLES = {"src": "ipv4[-1].src", "dst": "ipv4[-1].dst", "sport": "tcp[-1].sport", "dport": "tcp[-1].dport",
             "flags": "tcp[-1].flags", "len": "ipv4[-1].len", "ihl": "ipv4[-1].ihl", "off": "tcp[-1].off", "ttl": "ipv4[-1].ttl"}


def blocks(text):
    """The blocks that are set in, each as its lines."""
    block = []
    for line in [*re.sub(r"^```.*?^```$", "", text, flags=re.S | re.M).splitlines(), ""]:
        if line.startswith("    "):
            block.append(line[4:])
        elif block:
            yield block
            block = []


def commands(block):
    """The commands of a block, each with the lines that are shown of it."""
    found = []
    for line in block:
        if line.startswith("$ "):
            found.append((line[2:], []))
        else:
            found[-1][1].append(line)
    return found


def fits(shown, printed):
    """Whether these lines are those that are shown, where '..' stands for any number of them."""
    if ".." not in shown:
        return shown == printed
    cut = shown.index("..")
    if printed[:cut] != shown[:cut]:
        return False
    rest = shown[cut + 1:]
    return any(fits(rest, printed[start:]) for start in range(cut, len(printed) + 1))


class Run:
    def __init__(self, program, room):
        self.folder = room
        self.passed = self.failed = self.skipped = 0
        os.makedirs(f"{room}/bin")
        os.symlink(os.path.abspath(program), f"{room}/bin/dshark")
        os.symlink(os.path.abspath("tools"), f"{room}/tools")
        shutil.copytree("samples", f"{room}/samples", ignore=shutil.ignore_patterns("__pycache__"))
        self.environment = {**os.environ, "PATH": f"{room}/bin:{os.environ['PATH']}"}
        self.environment.pop("DSHARK", None)

    def lacks_tool(self, command):
        return any(re.search(rf"\b{tool}\b", command) and not shutil.which(tool) for tool in TOOLS)

    def lacks_file(self, command):
        """Whether it reads a file that is not there since the command that writes it was skipped."""
        read = re.findall(r"(?<!>)\b[\w.?*-]+\.(?:pcap|report)\b", command)
        return self.skipped > 0 and any(not glob.glob(os.path.join(self.folder, file)) for file in read)

    def count(self, holds, what):
        self.passed += holds
        self.failed += not holds
        if not holds:
            print(f"FAILED {what}")

    def command(self, command, shown):
        if command.startswith("cd "):
            self.folder = os.path.join(self.folder, command[3:])
            return
        if self.lacks_tool(command) or self.lacks_file(command):
            self.skipped += 1
            return
        ended = subprocess.run(["bash", "-c", command], cwd=self.folder, env=self.environment, stdout=subprocess.PIPE,
                               stderr=subprocess.STDOUT, text=True, check=False)
        lines = [line for line in ended.stdout.splitlines() if not line.startswith("Running as user")]  # tshark's, as root
        self.count(fits(shown, lines), f"{command}: it prints\n" + "\n".join(lines[:40]))


def check_filters(run, text, room):
    """Each expression in the right column of the table of filters is one of variables."""
    section = text.split("## 12.")[1]
    for left, right in re.findall(r"^\| (`.*?`) \| (.*) \|$", section, re.M):
        for words in re.findall(r"`([^`]*)`", right.replace("\\|", "|"))[:1]:
            if words == "none":
                continue
            job = {"version": 1, "captures": [{"name": "a", "file": "a"}],
                   "vars": [{"name": name, "take": [field]} for name, field in VARIABLES.items()], "filter": words,
                   "key": ["src"], "window": 0, "skew": 0, "query": {"kind": "all"}}
            with open(f"{room}/filter.json", "w", encoding="utf-8") as file:
                json.dump(job, file)
            ended = subprocess.run([f"{room}/bin/dshark", "check", f"{room}/filter.json"], capture_output=True, text=True, check=False)
            run.count(ended.returncode == 0, f"the filter for {left}: {words}: {ended.stderr}")


def main():
    program, room = sys.argv[1:]
    with open(DOCUMENT, encoding="utf-8") as file:
        text = file.read()
    run = Run(program, room)
    with open(f"{SITE}/forth.json", encoding="utf-8") as file:
        forth = file.read()
    with open(f"{SITE}/plausible.json", encoding="utf-8") as file:
        (job,) = re.findall(r"```json\n(.*?)```", text, re.S)
        run.count(job == file.read(), "the job that looks right is not samples/site/plausible.json")
    for block in blocks(text):
        if block[0].startswith("$ "):
            for command, shown in commands(block):
                run.command(command, shown)
        elif block[0].startswith("{"):
            run.count(all(line in forth for line in block), f"samples/site/forth.json has not {block[0]}")
    check_filters(run, text, room)
    skipped = f" ({run.skipped} skipped)" if run.skipped else ""
    print(f"tests/documents/operating.sh: {run.passed} passed, {run.failed} failed{skipped}")
    sys.exit(run.failed != 0 or run.passed < 40)


main()
