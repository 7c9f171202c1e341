#!/usr/bin/env bash
# Compares `dshark stack`, `dshark count ipv4[0].id` and `dshark central` with tshark on pcapng files.
#
# The program is $DSHARK where that is set, and else the one that the gate or `make demo` built; nothing is built
# here. The captures are those that editcap, mergecap and tshark write here from the samples, and all files named
# .pcapng of the packages in PACKAGES that are installed.
# - A file that tshark reads to its end: the status is 0. `stack` prints the number, the time and the headers of each
#   packet as tshark says them (stack_lines.py), and `whole` or `cut`; `count` has as many records, and the same
#   identifications.
# - A file that tshark gives up: the status is 2. `stack` prints the packets before that place, and `count` nothing.
# - Captures that mergecap put into one file: each of them is an interface there, and `central` prints the report of the
#   sample network.
# It ends with 1 on a difference. It skips with a line, and ends with 0, where a tool or the program is missing.
PACKAGES='golang-github-google-gopacket-dev'
WHOLE=(-o ip.defragment:FALSE -o ipv6.defragment:FALSE -o tcp.desegment_tcp_streams:FALSE)
. "$(dirname "$0")/../begin.sh" tests/peers/pcapng.sh tshark editcap mergecap python3 awk || exit 2
program=$(realpath "$program")
passed=0
failed=0
counted() { # WHETHER
    [ "$1" -eq 0 ] && passed=$((passed + 1)) || failed=$((failed + 1))
}

# Says whether a text is the one that is expected, and shows where it is not.
same() { # WHAT EXPECTED TEXT
    cmp -s "$2" "$3" && return 0
    echo "FAILED $1: tshark <, dshark >"
    diff "$2" "$3" | head -8
    return 1
}

# Writes the key of each member of each group of a report, in rising order.
keys() { # REPORT
    awk '$1 == "G" { sub("key=", "", $5); sub("n=", "", $6); for (i = 0; i < $6; i++) print $5 }' "$1" | sort -n
}

agrees() { # WHAT FILE
    local status=0 expected=0
    tshark -r "$2" "${WHOLE[@]}" -T pdml >"$room/pdml" 2>"$room/complaints" || expected=2
    python3 tests/peers/stack_lines.py "$room/theirs" <"$room/pdml" >"$room/expected" || { echo "FAILED $1: what tshark prints is not read"; return 1; }
    if grep -q 'cut short in the middle of a packet' "$room/complaints"; then
        expected=0
        echo cut >>"$room/expected"
    elif [ "$expected" -eq 0 ]; then
        echo whole >>"$room/expected"
    fi
    "$program" stack "$2" >"$room/lines" 2>"$room/line" || status=$?
    same "$1" "$room/expected" "$room/lines" || return 1
    [ "$status" -eq "$expected" ] || { echo "FAILED $1: status $status, expected $expected; line $(cat "$room/line")"; return 1; }

    status=0
    "$program" count 'ipv4[0].id' 3600000000000 "$2" >"$room/report" 2>"$room/line" || status=$?
    [ "$status" -eq "$expected" ] || { echo "FAILED $1: status of count $status, expected $expected"; return 1; }
    if [ "$expected" -ne 0 ]; then
        [ ! -s "$room/report" ] && return 0
        echo "FAILED $1: count writes $(wc -c <"$room/report") bytes of a malformed capture"
        return 1
    fi
    echo "records=$(($(wc -l <"$room/expected") - 1)) with identification=$(wc -l <"$room/theirs") $(tail -1 "$room/expected")" >"$room/expected"
    sed -n 's/^C c records=\([0-9]*\) unmatched=\([0-9]*\) .* \([a-z]*\)$/\1 \2 \3/p' "$room/report" | {
        read -r records unmatched ending
        echo "records=$records with identification=$((records - unmatched)) $ending"
    } >"$room/ours"
    same "$1" "$room/expected" "$room/ours" || return 1
    # A late record is in no group.
    grep -q ' late=0 ' "$room/report" || return 0
    keys "$room/report" >"$room/ours"
    same "$1" "$room/theirs" "$room/ours"
}

# Makes a file by a command that names it last, and compares it.
made() { # WHAT COMMAND..
    local what=$1
    shift
    rm -f "$room/made.pcapng"
    if ! "$@" "$room/made.pcapng" >"$room/said" 2>&1 || [ ! -s "$room/made.pcapng" ]; then
        failed=$((failed + 1))
        echo "FAILED $what: $1 makes no file: $(tail -1 "$room/said")"
        return 1
    fi
    agrees "$what" "$room/made.pcapng"
    counted $?
}

network=samples/network
printf '10.0.0.1 h1\n10.0.0.2 h2\n172.16.0.9 spine\n' >"$room/hosts"
echo 'CLIENT_RANDOM 00 00' >"$room/keys"
# tshark writes only the names that it has looked up, so it has to look at each packet; its status is 2 if FILE is cut.
by_tshark() { tshark -N n -W n -H "$room/hosts" -Y frame -F pcapng -r "$1" -w "$2"; [ -s "$2" ]; } # FILE MADE
for capture in samples/one-link.pcap "$network"/s?.pcap*; do
    made "${capture##*/} by editcap" editcap -F pcapng "$capture"
    made "${capture##*/} by tshark, with names" by_tshark "$capture"
done
editcap -F nsecpcap "$network/s2.pcap" "$room/nanoseconds.pcap" 2>/dev/null
made 'nanoseconds' editcap -F pcapng "$room/nanoseconds.pcap"
for length in 60 35 17; do
    made "packets cut to $length bytes" editcap -F pcapng -s "$length" "$network/s2.pcap"
done
made 'comments' editcap -F pcapng -a '1:the first' -a '3:the third, whose length is no multiple of four' "$network/s3.pcapng"
made 'secrets' editcap -F pcapng --inject-secrets "tls,$room/keys" "$network/s1.pcap"
made 'raw IP' editcap -F pcapng -L -C 14 -T rawip "$network/s1.pcap"
made 'another link' editcap -F pcapng -T null "$network/s1.pcap"
all=("$network/s1.pcap" "$network/s2.pcap" "$network/s4.pcap")
made 'interfaces of both units' mergecap -F pcapng -I none "$room/nanoseconds.pcap" "${all[@]}" -w
made 'interfaces that are put together' mergecap -F pcapng -I all "$room/nanoseconds.pcap" "${all[@]}" -w
made 'interfaces one after another' mergecap -F pcapng -a -I none "${all[@]}" "$network/s3.pcapng" -w
editcap -F pcapng "$network/s1.pcap" "$room/first.pcapng" 2>/dev/null
joined() { cat "$room/first.pcapng" "$network/s3.pcapng" "$room/first.pcapng" >"$1"; }
made 'sections of both orders' joined
# Files that end inside a block.
size=$(wc -c <"$network/s3.pcapng")
for less in 1 3 60 100 300; do
    shortened() { head -c $((size - less)) "$network/s3.pcapng" >"$1"; }
    made "s3.pcapng less $less bytes" shortened
done
# Damage in the second section, whose section block has 52 bytes and whose two interface blocks have 56 each.
damaged() { joined "$3" && printf "$1" | dd of="$3" bs=1 seek=$((at + $2)) conv=notrunc status=none; } # BYTES PLACE MADE
at=$(wc -c <"$room/first.pcapng")
made 'order bytes that are neither' damaged '\1\1\1\1' 8
made 'an unknown version' damaged '\0\2' 12
made 'two lengths that differ' damaged '\0\0\1\0' 48
made 'a packet of no interface' damaged '\0\0\0\7' 172
made 'a packet that is longer than its block' damaged '\0\0\1\0' 184

# Each capture of the network is an interface of one file.
merged_job() {
    editcap -F nsecpcap "$network/s3.pcapng" "$room/s3.pcap" 2>/dev/null
    mergecap -F pcapng -I none "$network/s1.pcap" "$network/s2.pcap" "$room/s3.pcap" "$network/s4.pcap" -w "$room/all.pcapng" 2>/dev/null
    python3 - "$network/job.json" >"$room/job.json" <<'PROGRAM'
import json
import sys

with open(sys.argv[1], encoding="utf-8") as file:
    job = json.load(file)
captures = [{**capture, "file": "all.pcapng", "interface": number} for number, capture in enumerate(job["captures"])]
print(json.dumps({**job, "version": 3, "captures": captures}))
PROGRAM
    (cd "$room" && "$program" central job.json) >"$room/report" 2>"$room/line"
    same 'the network in one file' "$network/job.report" "$room/report"
}
merged_job
counted $?

# shellcheck disable=SC2086
while read -r capture; do
    [ -f "$capture" ] || continue
    agrees "$capture" "$capture"
    counted $?
done < <(ls "$network"/*.pcapng; dpkg -L $PACKAGES 2>/dev/null | grep -E '\.pcapng$' | sort)

echo "tests/peers/pcapng.sh: $passed passed, $failed failed"
[ "$failed" -eq 0 ]
