#!/usr/bin/env bash
# Plays two capture points that are still writing, into pipes, while `dshark run` reads them: the first answers come while
# they go on. stream.py has the steps.
#
# The program is $DSHARK where that is set, and else the one that the gate or `make demo` built. It ends with 1 on a
# difference, and skips with a line, and ends with 0, where python3 or the program is missing.
. "$(dirname "$0")/../begin.sh" tests/ends/stream.sh python3 mkfifo || exit 2
PYTHONDONTWRITEBYTECODE=1 timeout 300 python3 tests/ends/stream.py "$program" "$room"
