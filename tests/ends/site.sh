#!/usr/bin/env bash
# Plays an operator who follows docs/OPERATING.md in networks that samples/site/make_site.py draws from seeds: preflight of
# a job that looks right, the jobs set right by what it says, and their reports, which have to name exactly the packets
# that are lost, where, and the one that the NAT missed. site.py has the steps.
#
# The program is $DSHARK where that is set, and else the one that the gate or `make demo` built. It ends with 1 on a
# difference, and skips with a line, and ends with 0, where python3 or the program is missing.
. "$(dirname "$0")/../begin.sh" tests/ends/site.sh python3 || exit 2
export LC_ALL=C.UTF-8 PYTHONDONTWRITEBYTECODE=1 DSHARK=$(realpath "$program")
python3 tests/ends/site.py "$room"
