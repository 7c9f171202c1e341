"""Compares the commands that README.md and docs/JOBS.md show with what they print. Word: the program, if there is one.

A command stands in backquotes in the paragraph above a block that is set in, or in the block after '$ '. The lines of
the block stand in what it prints, in that order; '..' stands for lines that are left out. Without the program the
stored reports of the sample network are taken, and the other commands are skipped.
"""

import re
import shlex
import subprocess
import sys

NETWORK = "samples/network"


def printed(program, command):
    """What a command prints, or None where that is not known."""
    words = shlex.split(command)[1:]
    if words[0] not in ("count", "stack", "central"):
        return None
    if program:
        folder = "." if any(word.startswith("samples/") for word in words) else NETWORK
        return subprocess.run([program, *words], cwd=folder, capture_output=True, text=True, check=False).stdout
    if words[0] == "central":
        with open(f"{NETWORK}/{words[1].replace('.json', '.report')}", encoding="utf-8") as file:
            return file.read()
    return None


def shown(document):
    """Each command with the lines that a document shows of it."""
    above, block = "", []
    with open(document, encoding="utf-8") as file:
        lines = file.read().splitlines() + [""]
    for line in lines:
        if line.startswith("    "):
            block.append(line[4:])
            continue
        if block and block[0].startswith("$ "):
            for part in "\n".join(block).split("$ ")[1:]:
                command, *rest = part.rstrip("\n").split("\n")
                yield command, rest
        elif block and above.endswith(":"):
            for command in re.findall(r"`(dshark [^`]*)`", above)[:1]:
                yield command, block
        if line:
            above = line
        block = []


def main():
    program = sys.argv[1] if len(sys.argv) > 1 else None
    passed, failed, skipped = 0, 0, 0
    for command, lines in [*shown("README.md"), *shown("docs/JOBS.md")]:
        if not command.startswith("dshark ") or not lines:
            continue
        text = printed(program, command)
        if text is None:
            skipped += 1
            continue
        rest = iter(text.splitlines())
        missing = [line for line in lines if line != ".." and line not in rest]
        if missing:
            failed += 1
            print(f"FAILED {command}: it does not print, or not in this place: {missing[0]}")
        else:
            passed += 1
    print(f"tests/documents/examples.sh: {passed} passed, {failed} failed" + (f" ({skipped} skipped)" if skipped else ""))
    sys.exit(failed != 0 or passed < 7)


main()
