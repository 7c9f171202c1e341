#!/usr/bin/env bash
# bench/pcapng.sh [-n PACKETS] [-p PAYLOAD] [-r ROUNDS] [PROGRAM]
#
# Times `dshark stack` on a libpcap file and on a pcapng file with the same packets, in turn in VXLAN and in GRE: first
# PACKETS of them (default 500000), then four times as many. Beside it stand passes that only read the pcapng file (cat)
# and that count its packets (capinfos). Before that it says whether `stack` prints the same of both files.
# Rows alternate, and the least of ROUNDS (default 3) counts. The column 'cpu to dshark libpcap' of the row of pcapng is
# what pcapng costs beside libpcap: wanted is at most 1.3. Peak memory is to be the same for both sizes.
# PROGRAM is the built dshark (default: the one that `make demo` built). A peer that is missing is left out with a line.
# Needs gcc, bash and /usr/bin/time; what it makes lies in a temporary folder (1,020 bytes for each of PACKETS).
set -eu
packets=500000 payload=22 rounds=3
usage() { sed -n 's/^# //p' "$0" | head -1 >&2; exit 1; }
while getopts n:p:r: option; do
    case $option in n) packets=$OPTARG ;; p) payload=$OPTARG ;; r) rounds=$OPTARG ;; *) usage ;; esac
done
shift $((OPTIND - 1))
here=$(cd "$(dirname "$0")" && pwd)
. "$here/table.sh"
gcc -O2 -o "$room/make_capture" "$here/make_capture.c"
gcc -O2 -o "$room/make_pcapng" "$here/make_pcapng.c"

for times in 1 4; do
    "$room/make_capture" "$room/all.pcap" $((packets * times)) "$payload" 1 tunnels
    "$room/make_pcapng" "$room/all.pcap" "$room/all.pcapng" >/dev/null
    cmp -s <("$program" stack "$room/all.pcap") <("$program" stack "$room/all.pcapng") ||
        { echo "bench/pcapng.sh: stack prints two different texts" >&2; exit 1; }
    names=() commands=()
    row 'dshark libpcap' "$program" "$program" stack "$room/all.pcap"
    row 'dshark pcapng' "$program" "$program" stack "$room/all.pcapng"
    row 'cat (reads only)' cat cat "$room/all.pcapng"
    row 'capinfos -c' capinfos capinfos -c "$room/all.pcapng"
    echo "libpcap: $(stat -c %s "$room/all.pcap") bytes, pcapng: $(stat -c %s "$room/all.pcapng") bytes"
    table $((packets * times)) $((packets * times)) "$(stat -c %s "$room/all.pcapng")" 1
    echo
done
