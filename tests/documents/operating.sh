#!/usr/bin/env bash
# Runs every command of docs/OPERATING.md, in its order and in a copy of the samples, and compares what it prints with
# what is shown; has dshark check its filters; and holds its examples to the jobs in samples/site. operating.py says how.
# Commands whose tools are missing (editcap, tshark, parallel) are skipped, and those that read what these write.
#
# The program is $DSHARK where that is set, and else the one that the gate or `make demo` built. It ends with 1 on a
# difference, and skips with a line, and ends with 0, where python3 or the program is missing.
. "$(dirname "$0")/../begin.sh" tests/documents/operating.sh python3 || exit 2
export LC_ALL=C.UTF-8 PYTHONDONTWRITEBYTECODE=1 TZ=UTC
python3 tests/documents/operating.py "$program" "$room"
