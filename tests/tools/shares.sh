#!/usr/bin/env bash
# Runs the jobs of the sample network, and 50 that are drawn from a seed, in 2, 3 and 7 shares by tools/shard, puts their
# reports together by tools/merge-reports, and compares them with those of `dshark central`, byte for byte; shares.py has
# the jobs. Then what both refuse.
#
# The program is $DSHARK where that is set, and else the one that the gate or `make demo` built. It ends with 1 on a
# difference, and skips with a line, and ends with 0, where python3 or the program is missing.
. "$(dirname "$0")/../begin.sh" tests/tools/shares.sh python3 || exit 2
export PYTHONDONTWRITEBYTECODE=1 DSHARK=$(realpath "$program")
passed=0
failed=0

ends() { # WHAT STATUS LINE WORD..
    local what=$1 status=$2 line=$3 ended
    shift 3
    "$@" >"$room/printed" 2>"$room/line"
    ended=$?
    if [ "$ended" -eq "$status" ] && [ "$(sed "s|$room/||g" "$room/line")" = "$line" ]; then
        passed=$((passed + 1))
    else
        failed=$((failed + 1))
        echo "FAILED $what: status $ended, expected $status; line $(cat "$room/line")"
    fi
}

network=samples/network
ends 'two shares' 0 '' tools/shard --folder "$room" $network/job.json 2
for share in 0 1; do (cd $network && "$DSHARK" central "$room/job.$share-of-2.json") >"$room/$share"; done
ends 'their reports' 0 '' tools/merge-reports "$room/1" "$room/0"
ends 'one share twice' 1 'merge-reports: two reports have the packet G 1700000000000100000 s1 2: is a share given twice?' \
    tools/merge-reports "$room/0" "$room/0"
ends 'more records than there are' 1 'merge-reports: s1 has 8 records, and the shares have 10 of them: is one given twice?' \
    tools/merge-reports "$room/0" "$room/1" "$room/0"
sed 's/s1/s9/g' "$room/0" >"$room/other"
ends 'other captures' 1 'merge-reports: 1 and other are not of the same captures' tools/merge-reports "$room/1" "$room/other"
sed '/^C s1/{s/records=8/records=9/;s/unmatched=5/unmatched=6/}' "$room/0" >"$room/more"
ends 'another number of records' 1 'merge-reports: 1 and more differ in the records of s1: they are no shares of one job' \
    tools/merge-reports "$room/1" "$room/more"
ends 'no report' 1 'merge-reports: job.0-of-2.json: line 1: it begins with none of '"'G ', 'P ', 'C ' and 'E '" \
    tools/merge-reports "$room/job.0-of-2.json"
mkfifo "$room/pipe"
ends 'a pipe' 1 'merge-reports: pipe is no file, and it is read more than once' tools/merge-reports "$room/0" "$room/pipe"
ends 'a missing report' 1 "merge-reports: [Errno 2] No such file or directory: 'none'" tools/merge-reports "$room/none"
python3 - "$room" <<'PROGRAM'
import json, sys
job = {"version": 1, "captures": [{"name": "a", "file": "a"}], "vars": [{"name": "v", "take": ["ipv4[0].id"]}], "key": ["v"],
       "window": 0, "skew": 0, "query": {"kind": "all"}}
for name, words in (("long", "v" + " || v" * 203), ("deep", "(" * 32 + "v" + ")" * 32)):
    with open(f"{sys.argv[1]}/{name}", "w", encoding="utf-8") as file:
        json.dump({**job, "filter": words}, file)
PROGRAM
ends 'a filter that gets too long' 1 "shard: long: a share is refused (job: filter[0]: limit 1032): its filter would be (v$(printf ' || v%.0s' {1..39}) ||" \
    tools/shard "$room/long" 3
ends 'a filter that gets too deep' 1 "shard: deep: a share is refused (job: filter[0]: expression 32 deep): its filter would be $(printf '(%.0s' {1..33})v$(printf ')%.0s' {1..33}) && v % 3 == 0" \
    tools/shard "$room/deep" 3
ends 'a job that is refused' 1 "shard: samples/one-link.pcap: job: whole[0]: not json (explain samples/one-link.pcap shows the place)" \
    tools/shard samples/one-link.pcap 3
if ls "$room"/*-of-3.json >/dev/null 2>&1; then failed=$((failed + 1)) && echo 'FAILED: a share of a refused job is written'; fi
tools/shard $network/job.json 0 >/dev/null 2>&1
[ $? -eq 2 ] && passed=$((passed + 1)) || { failed=$((failed + 1)); echo 'FAILED: 0 shares are not refused with 2'; }

mkdir "$room/jobs"
python3 tests/tools/shares.py "$DSHARK" "$room/jobs" && passed=$((passed + 1)) || failed=$((failed + 1))
echo "tests/tools/shares.sh: $passed passed, $failed failed"
[ "$failed" -eq 0 ]
