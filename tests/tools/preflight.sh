#!/usr/bin/env bash
# Has tools/preflight look at small captures of which it is known what is wrong: files that dshark refuses, each with the
# command that makes a readable one of it, and each thing to look at. preflight.py has the cases.
#
# The program is $DSHARK where that is set, and else the one that the gate or `make demo` built. It ends with 1 on a
# difference, and skips with a line, and ends with 0, where python3 or the program is missing.
. "$(dirname "$0")/../begin.sh" tests/tools/preflight.sh python3 || exit 2
export PYTHONDONTWRITEBYTECODE=1 DSHARK=$(realpath "$program")
passed=0
failed=0

is() { # WHAT EXPECTED GOT
    if [ "$2" = "$3" ]; then
        passed=$((passed + 1))
    else
        failed=$((failed + 1))
        echo "FAILED $1: expected $2, was $3"
    fi
}

python3 tests/tools/preflight.py "$room"
is 'the cases' 0 "$?"
is 'a job that is refused' '1 preflight: samples/one-link.pcap: job: whole[0]: not json (explain samples/one-link.pcap shows the place)' \
    "$(said=$(tools/preflight samples/one-link.pcap 2>&1); echo "$? $said")"
is 'a missing job' '1 preflight: none: read: file 0' "$(said=$(tools/preflight none 2>&1); echo "$? $said")"
tools/preflight --records 0 samples/network/job.json >/dev/null 2>&1
is 'no records' 2 "$?"
is 'no program' '2 preflight: there is no dshark: build it by make demo, or set DSHARK' \
    "$(cp -r tools "$room/tools" && said=$(DSHARK='' PATH=/usr/bin:/bin "$room/tools/preflight" none 2>&1); echo "$? $said")"
is 'the front of long captures' '0 capture s2: s2.pcap, libpcap, the first 3 records, whole, 2023-11-14T22:13:20.000041300Z to 2023-11-14T22:13:20.000240510Z' \
    "$(cd samples/network && said=$(../../tools/preflight --records 3 job.json 2>&1); echo "$? $(grep '^capture s2' <<<"$said")")"

echo "tests/tools/preflight.sh: $passed passed, $failed failed"
[ "$failed" -eq 0 ]
