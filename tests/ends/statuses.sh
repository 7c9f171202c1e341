#!/usr/bin/env bash
# Runs the program on real files and streams: each status but 6 (no memory), with its line on the standard error.
#
# It ends with 1 on a difference. It skips with a line, and ends with 0, where the program is missing.
. "$(dirname "$0")/../begin.sh" tests/ends/statuses.sh || exit 2

passed=0
failed=0
# Runs the program with these words, its output in FILE, and compares its status and its line.
ends() { # WHAT STATUS LINE FILE WORD..
    local what=$1 status=$2 line=$3 file=$4
    shift 4
    "$program" "$@" >"$file" 2>"$room/line"
    local ended=$?
    [ -z "$line" ] || line+=$'\n'
    printf %s "$line" >"$room/expected"
    if [ "$ended" -eq "$status" ] && cmp -s "$room/expected" "$room/line"; then
        passed=$((passed + 1))
    else
        failed=$((failed + 1))
        echo "FAILED $what: status $ended, expected $status; line $(cat "$room/line")"
    fi
}

# Says whether the last report has that many bytes.
writes() { # BYTES
    [ "$(wc -c <"$room/report")" -eq "$1" ] && return
    failed=$((failed + 1))
    echo "FAILED: $(wc -c <"$room/report") bytes written, expected $1"
}

capture=crates/dshark_cli/data/a
ends 'a whole report' 0 '' "$room/report" count 'ipv4[0].id' 1000000 "$capture"
printf '%s\n' 'G 1000000000 c 0 key=7 n=1 ok' 'C c records=1 unmatched=0 late=0 accepted=1 whole' 'E groups=1 summaries=1' |
    cmp -s - "$room/report" || { failed=$((failed + 1)); echo 'FAILED: the report of one capture is another'; }
ends 'no words' 1 'dshark: usage: word 0' "$room/report"
writes 0
ends 'a word that is no text' 1 'dshark: usage: word 0' "$room/report" $'\xff'
writes 0
# pcapng, as hexadecimal digits: a section, its interface, and an enhanced packet of 42 bytes at one second.
section=0A0D0D0A1C0000004D3C2B1A01000000FFFFFFFFFFFFFFFF1C000000
interface=0100000014000000010000000000040014000000
bytes=0200000000020200000000010800450000 bytes+=1C00070000401100000A0000010A00000204D2003500080000
packet() { echo "060000004C000000$1${2}40420F00${3}2A000000${bytes}00004C000000"; } # INTERFACE TIME CAPTURED
pcapng() { printf "$(printf %s "$@" | sed 's/../\\x&/g')" >"$room/pcapng"; } # HEXADECIMAL..
pcapng $section $interface "$(packet 00000000 00000000 2A000000)"
ends 'a pcapng file' 0 '' "$room/report" count 'ipv4[0].id' 1000000 "$room/pcapng"
printf '%s\n' 'G 1000000000 c 0 key=7 n=1 ok' 'C c records=1 unmatched=0 late=0 accepted=1 whole' 'E groups=1 summaries=1' |
    cmp -s - "$room/report" || { failed=$((failed + 1)); echo "FAILED: the report of a pcapng file is $(cat "$room/report")"; }

malformed() { # WHAT HEXADECIMAL..
    local what=$1
    shift
    pcapng "$@"
    ends "$what" 2 "dshark: capture c: $what" "$room/report" count 'ipv4[0].id' 1000000 "$room/pcapng"
    writes 0
}
malformed 'byte 4: short header' 0A0D0D0A
malformed 'byte 8: pcapng' ${section/4D3C2B1A/4D3C2B1B}
malformed 'byte 4: block length 24' ${section/1C000000/18000000}
malformed 'byte 24: block tail 32' ${section%1C000000}20000000
malformed 'byte 12: version 2.0' ${section/01000000/02000000}
malformed 'byte 48: resolution 31' $section 0100000020000000010000000000040009000100 1F0000000000000020000000
malformed 'byte 56: interface 1' $section $interface "$(packet 01000000 00000000 2A000000)"
malformed 'byte 68: record 0 length 262145' $section $interface "$(packet 00000000 00000000 01000400)"
malformed 'byte 68: record 0 packet 45' $section $interface "$(packet 00000000 00000000 2D000000)"
malformed 'byte 60: record 0 time' $section $interface "$(packet 00000000 FFFFFFFF 2A000000)"

ends 'a missing file' 3 'dshark: read: file 0' "$room/report" count 'ipv4[0].id' 1000000 "$room/missing"
writes 0
ends 'a directory' 3 'dshark: read: file 0' "$room/report" count 'ipv4[0].id' 1000000 "$room"
writes 0
ends 'a full device' 4 'dshark: write' /dev/full count 'ipv4[0].id' 1000000 "$capture"

echo "tests/ends/statuses.sh: $passed passed, $failed failed"
[ "$failed" -eq 0 ]
