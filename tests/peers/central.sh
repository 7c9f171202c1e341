#!/usr/bin/env bash
# Compares `dshark central`, and `dshark run` by pipelines of several shapes, with reports that are made anew from
# tshark's fields: of the sample network with all of its
# jobs, and of the jobs that central_variations.py makes (files that are cut, equal times, both byte orders and units,
# late records, ends of windows, clocks with offsets, skews of captures, interfaces, random traffic). The stored reports
# of the sample network are the same text.
#
# The program is $DSHARK where that is set, and else the one that the gate or `make demo` built; nothing is built
# here. It ends with 1 on a difference. It skips with a line, and ends with 0, where a tool or the program is missing.
. "$(dirname "$0")/../begin.sh" tests/peers/central.sh python3 tshark || exit 2
program=$(realpath "$program")
peer=$PWD/tests/peers/central_report.py
passed=0
failed=0
counted() { # WHETHER
    [ "$1" -eq 0 ] && passed=$((passed + 1)) || failed=$((failed + 1))
}

# Says whether a text is the one that is expected, and shows where it is not.
same() { # WHAT EXPECTED TEXT
    cmp -s "$2" "$3" && return 0
    echo "FAILED $1: expected <, was >"
    diff "$2" "$3" | head -12
    return 1
}

# Runs a job in its folder, by each command that owes its report and by the peer.
agrees() { # FOLDER JOB
    local status words
    (cd "$1" && python3 "$peer" "$2") >"$room/expected" || { echo "FAILED $1/$2: the peer has no report"; return 1; }
    for words in "central $2" "run $2" "run $2 --parsers 1 --groupers 1 --processors 1" \
        "run $2 --parsers 16 --groupers 16 --processors 16 --credits 1"; do
        # shellcheck disable=SC2086
        (cd "$1" && "$program" $words) >"$room/report" 2>"$room/line"
        status=$?
        same "$1: $words" "$room/expected" "$room/report" || return 1
        [ "$status" -eq 0 ] && [ ! -s "$room/line" ] && continue
        echo "FAILED $1: $words: status $status, expected 0; line $(cat "$room/line")"
        return 1
    done
}

# The sample network: its captures are those that its script makes, and its reports those of the peer.
mkdir "$room/network" "$room/variations"
python3 samples/network/make_network.py "$room/network"
for capture in samples/network/*.pcap*; do
    same "$capture" "$room/network/${capture##*/}" "$capture"
    counted $?
done
for job in job drop clock clock-delays clock-set interfaces; do
    agrees samples/network "$job.json"
    counted $?
    same "samples/network/$job.report" "$room/expected" "samples/network/$job.report"
    counted $?
done

python3 tests/peers/central_variations.py "$room/variations" || exit 2
for folder in "$room"/variations/*; do
    agrees "$folder" job.json
    counted $?
done

echo "tests/peers/central.sh: $passed passed, $failed failed"
[ "$failed" -eq 0 ]
