#!/usr/bin/env bash
# bench/central.sh [-n PACKETS] [-p PAYLOAD] [-r ROUNDS] [-t PACKETS_OF_TSHARK] [PROGRAM]
#
# Times `dshark central` on eight captures of one network (make_network.c): PACKETS packets (default 1000000), each
# captured at 2 to 4 points, bare, in VXLAN and in GRE in turn, so about three records a packet; it looks for loops and
# takes the delays; and `dshark run` on the same job, with 1, 2 and 16 nodes of each kind and 16 and 1,024 credits a link.
# Beside them stand passes that do less: one that only reads the files (cat), one that merges them by
# time (mergecap), a count of their records (capinfos), and `tshark -T fields` with the last ip.id and ip.ttl of each.
# Rows alternate, and the least of ROUNDS counts. tshark is slow: it reads captures of PACKETS_OF_TSHARK packets
# (default 100000), and its row is scaled to the records. Peak memory is that of the largest process of a row.
# PROGRAM is the built dshark (default: the one that `make demo` built). A peer that is missing is left out with a
# line. Needs gcc, bash and /usr/bin/time; what it makes lies in a temporary folder.
set -eu
packets=1000000 payload=22 rounds=3 few=100000
usage() { sed -n 's/^# //p' "$0" | head -1 >&2; exit 1; }
while getopts n:p:r:t: option; do
    case $option in
    n) packets=$OPTARG ;; p) payload=$OPTARG ;; r) rounds=$OPTARG ;; t) few=$OPTARG ;; *) usage ;;
    esac
done
shift $((OPTIND - 1))
here=$(cd "$(dirname "$0")" && pwd)
. "$here/table.sh"
gcc -O2 -o "$room/make_network" "$here/make_network.c"
mkdir "$room/all" "$room/few"
records=$("$room/make_network" "$room/all" "$packets" "$payload")
few_records=$("$room/make_network" "$room/few" "$few" "$payload")
cat >"$room/tshark_each" <<'EACH'
#!/usr/bin/env bash
for capture; do tshark -r "$capture" -T fields -E occurrence=l -e frame.time_epoch -e ip.id -e ip.ttl || exit 1; done
EACH
chmod 755 "$room/tshark_each"

# The commands run in the folder of the captures.
cd "$room/all"
captures=$(echo p?.pcap)
bytes=$(cat p?.pcap | wc -c)
row 'dshark central' "$program" "$program" central job.json
for many in 1 2 16; do
    for credits in 16 1024; do
        row "dshark run $many/$credits" "$program" "$program" run job.json \
            --parsers "$many" --groupers "$many" --processors "$many" --credits "$credits"
    done
done
row 'cat (reads only)' cat cat "$captures"
row 'mergecap' mergecap mergecap -w - "$captures"
row 'capinfos -c' capinfos capinfos -c "$captures"
row 'tshark fields' tshark "$room/tshark_each" "$(echo ../few/p?.pcap)"
table "$records" "$few_records" "$bytes" 9
