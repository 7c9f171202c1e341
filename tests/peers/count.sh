#!/usr/bin/env bash
# Compares `dshark count ipv4[0].id` with tshark and capinfos, on the captures that other tools ship.
#
# The program is $DSHARK where that is set, and else the one that the gate or `make demo` built; nothing is built
# here. Captures are all files named .pcap or .cap of the packages in PACKAGES that are installed; pcapng.sh has those
# in pcapng.
# - A libpcap file of link type Ethernet or raw IP: the status is 0, records= is capinfos' number of packets, and
#   each identification is that of as many packets as tshark says. tshark reads more layers than dshark does (PPPoE,
#   L2TP, ..), so of its packets those count whose first IPv4 header follows headers that dshark reads; both
#   ask for a whole header in the captured bytes.
# - Every other file is malformed: the status is 2, and nothing is written.
# It ends with 1 on a difference. It skips with a line, and ends with 0, where a tool or the program is missing.
PACKAGES='python3-dpkt golang-github-google-gopacket-dev'
BEFORE_IPV4='eth|raw|ethertype|vlan|ipv6|ipv6\.hopopts|ipv6\.routing|ipv6\.dstopts|ipv6\.fraghdr|gre'
. "$(dirname "$0")/../begin.sh" tests/peers/count.sh dpkg tshark capinfos awk || exit 2

passed=0
failed=0
# Says whether two answers about a capture are the same, and ends with the difference.
same() { # WHAT OURS THEIRS
    [ "$2" = "$3" ] && return 0
    echo "FAILED $capture: $1: dshark ${2:-nothing}, expected ${3:-nothing}"
    return 1
}

# Writes the identification of each packet whose first IPv4 header dshark reads, sorted.
identifications() { # FILE
    tshark -r "$1" -Y ip -T fields -E occurrence=f -e frame.protocols -e ip.id 2>/dev/null |
        awk -F '\t' -v before="^(($BEFORE_IPV4):)+ip(:|$)" '$1 ~ before { print $2 }' |
        while read -r number; do echo $((number)); done | sort
}

# Writes the key of each member of each group of a report, sorted.
keys() { # REPORT
    awk '$1 == "G" { sub("key=", "", $5); sub("n=", "", $6); for (i = 0; i < $6; i++) print $5 }' "$1" | sort
}

sound() { # FILE PACKETS
    local records unmatched late
    same 'exit status' "$status" 0 || return 1
    read -r records unmatched late < <(sed -n 's/^C c records=\([0-9]*\) unmatched=\([0-9]*\) late=\([0-9]*\) .*/\1 \2 \3/p' "$room/report")
    same 'records' "$records" "$2" || return 1
    identifications "$1" >"$room/theirs"
    same 'packets with an IPv4 header' $((records - unmatched)) "$(wc -l <"$room/theirs")" || return 1
    # A late record is in no group.
    [ "$late" -ne 0 ] || same 'identifications' "$(keys "$room/report")" "$(cat "$room/theirs")"
}

malformed() {
    same 'exit status' "$status" 2 && same 'bytes written' "$(wc -c <"$room/report")" 0
}

# shellcheck disable=SC2086
while read -r capture; do
    [ -f "$capture" ] || continue
    # The kind of file, its link type, and how many packets it has.
    IFS=, read -r _ kind link packets < <(capinfos -T -r -m -t -E -c -M "$capture" 2>/dev/null)
    "$program" count 'ipv4[0].id' 1000000 "$capture" >"$room/report" 2>/dev/null
    status=$?
    case $kind,$link in
    pcap,ether | pcap,rawip | nsecpcap,ether | nsecpcap,rawip) sound "$capture" "$packets" ;;
    pcapng,*) continue ;;
    *) malformed ;;
    esac && passed=$((passed + 1)) || failed=$((failed + 1))
done < <(dpkg -L $PACKAGES 2>/dev/null | grep -E '\.(pcap|cap)$' | sort)

[ $((passed + failed)) -ne 0 ] || echo "tests/peers/count.sh: skipped: none of $PACKAGES is installed"
echo "$passed passed, $failed failed"
[ "$failed" -eq 0 ]
