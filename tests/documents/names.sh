#!/usr/bin/env bash
# Holds the documents to the repository: every name in backquotes and every path in docs/*.md and in the documents at
# the top exists, and the tables of clauses and crates have all of them. names.py says how.
#
# It needs no built program. It ends with 1 on a difference, and skips with a line, and ends with 0, where python3 is
# missing.
export LC_ALL=C.UTF-8 PYTHONDONTWRITEBYTECODE=1
cd "$(dirname "$0")/../.." || exit 2
command -v python3 >/dev/null || { echo 'tests/documents/names.sh: skipped: python3 is not installed'; exit 0; }
python3 tests/documents/names.py
