#!/usr/bin/env bash
# Reads jobs with `dshark check`: each example of docs/JOBS.md, each job under samples/ and each one of
# tests/jobs/accepted.txt is accepted and printed in its canonical form, and each job of tests/jobs/refused.txt is
# refused with its fault.
#
# The program is $DSHARK where that is set, and else the one that the gate or `make demo` built; nothing is built
# here. The canonical form is made anew by python3. It ends with 1 on a difference, and skips with a line, and ends
# with 0, where python3 or the program is missing.
. "$(dirname "$0")/../begin.sh" tests/jobs/jobs.sh python3 || exit 2
python3 tests/jobs/jobs.py "$program" "$room"
