#!/usr/bin/env bash
# Runs the commands that README.md and docs/JOBS.md show, and compares what they print with what is shown. Where the
# program is not built, the stored reports stand for it. examples.py says how.
#
# It ends with 1 on a difference, and skips with a line, and ends with 0, where python3 is missing.
export LC_ALL=C.UTF-8 PYTHONDONTWRITEBYTECODE=1
cd "$(dirname "$0")/../.." || exit 2
command -v python3 >/dev/null || { echo 'tests/documents/examples.sh: skipped: python3 is not installed'; exit 0; }
program=$(realpath -m "${DSHARK:-crates/dshark_cli/out/dshark_cli}")
[ -x "$program" ] || program=
python3 tests/documents/examples.py ${program:+"$program"}
