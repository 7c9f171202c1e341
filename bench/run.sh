#!/usr/bin/env bash
# bench/run.sh [-n PACKETS] [-c COPIES] [-r ROUNDS] [-t PACKETS_OF_TSHARK] [-T TUNNELLED_PACKETS] [PROGRAM]
#
# Two tables, each with peak memory and with MB of capture for each second of cpu:
# - `dshark count ipv4[0].id 1000000` on PACKETS plain packets (80 bytes a record), beside a pass that only reads the
#   file (cat), a count by capinfos, and `tshark -T fields -e ip.id`;
# - `dshark stack` and `dshark count ipv4[-1].id 1000000` on TUNNELLED_PACKETS (2000000; 0 leaves the table out), in
#   turn in VXLAN and GRE (119 bytes a record), beside cat, `tshark -T fields -e frame.protocols` and the last ip.id.
# Rows alternate, and the least of ROUNDS counts. tshark is slow: it reads a capture of its own size, and its rows are
# scaled to the records.
# PROGRAM is the built dshark (default: the one that `make demo` built). A peer that is missing is left out with a
# line. Needs gcc, bash and /usr/bin/time; what it makes lies in a temporary folder.
set -eu
packets=1000000 copies=1 rounds=3 few=100000 tunnelled=2000000
usage() { sed -n 's/^# //p' "$0" | head -1 >&2; exit 1; }
while getopts n:c:r:t:T: option; do
    case $option in
    n) packets=$OPTARG ;; c) copies=$OPTARG ;; r) rounds=$OPTARG ;; t) few=$OPTARG ;; T) tunnelled=$OPTARG ;; *) usage ;;
    esac
done
shift $((OPTIND - 1))
here=$(cd "$(dirname "$0")" && pwd)
. "$here/table.sh"
gcc -O2 -o "$room/make_capture" "$here/make_capture.c"

"$room/make_capture" "$room/all.pcap" "$packets" 22 "$copies"
"$room/make_capture" "$room/few.pcap" "$few"
row 'dshark count' "$program" "$program" count 'ipv4[0].id' 1000000 "$room/all.pcap"
row 'cat (reads only)' cat cat "$room/all.pcap"
row 'capinfos -c' capinfos capinfos -c "$room/all.pcap"
row 'tshark ip.id' tshark tshark -r "$room/few.pcap" -T fields -e ip.id
table $((packets * copies)) "$few" "$(stat -c %s "$room/all.pcap")" 2

[ "$tunnelled" -ne 0 ] || exit 0
"$room/make_capture" "$room/all.pcap" "$tunnelled" 22 1 tunnels
"$room/make_capture" "$room/few.pcap" "$few" 22 1 tunnels
names=() commands=()
row 'dshark stack' "$program" "$program" stack "$room/all.pcap"
row 'dshark count' "$program" "$program" count 'ipv4[-1].id' 1000000 "$room/all.pcap"
row 'cat (reads only)' cat cat "$room/all.pcap"
row 'tshark protocols' tshark tshark -r "$room/few.pcap" -T fields -e frame.protocols
row 'tshark ip.id' tshark tshark -r "$room/few.pcap" -T fields -E occurrence=l -e ip.id
echo
table "$tunnelled" "$few" "$(stat -c %s "$room/all.pcap")" 2
