"""Finds the program dshark for the tools beside this module, and runs it for them.

The program is $DSHARK where that is set, else dshark if it is installed, else the one that make demo built.
"""

import json
import os
import shutil
import subprocess
import sys


class Refused(Exception):
    """What dshark said of what it was given."""


def find_program(tool):
    """The path of the program; without one the tool ends with 2."""
    here = os.path.dirname(os.path.realpath(__file__))
    built = os.path.join(here, "..", "crates", "dshark_cli", "out", "dshark_cli")
    program = os.environ.get("DSHARK") or shutil.which("dshark") or (built if os.access(built, os.X_OK) else None)
    if not program:
        print(f"{tool}: there is no dshark: build it by make demo, or set DSHARK", file=sys.stderr)
        sys.exit(2)
    return program


def printed(program, *words):
    """The lines that dshark prints."""
    ended = subprocess.run([program, *words], capture_output=True, text=True, check=False)
    if ended.returncode:
        raise Refused(ended.stderr.strip().removeprefix("dshark: ") or f"{program} ended with {ended.returncode}")
    return ended.stdout.splitlines()


def read_job(program, name):
    """The job in this file with all its members, as dshark reads it."""
    try:
        return json.loads(printed(program, "check", name)[0])
    except Refused as fault:
        hint = f" (explain {name} shows the place)" if str(fault).startswith("job: ") else ""
        raise Refused(f"{name}: {fault}{hint}") from None


def skew_of(job, capture):
    return capture.get("skew", job["skew"])


def alone(job, capture, window=0, skew=3_600_000_000_000):
    """A job of one capture of a job, which asks nothing: with a window of 0 each record that it takes is a group."""
    members = {**capture}
    if job["version"] >= 2:
        members["skew"] = skew
    return {**job, "captures": [members], "query": {"kind": "all"}, "profile": False, "window": window, "skew": skew}
