#!/usr/bin/env bash
# bench/parser/run.sh [ROUNDS [PROGRAM]]
#
# The cpu of one parser of a pipeline over a capture of 1,000,000 records (80 bytes each) that lies in memory, which it
# reads in pieces of 4,096 bytes: an Item for each record goes over a ring link of 16 credits to a plain receiver, and
# the counts over another, on one thread, with cuts of 4,096 bytes. Beside it, in the same rounds, stand
# `dshark stack --field ipv4[0].id` on the same file, and what it takes to read the file into memory, which is in the
# row of the parser too.
# Builds the program of the folder parser_bench in a copy of the crates that it stands on, proves it and runs it, each
# row in a process of its own; JOBS is the number of processors that prove, where it is set. Prints the least and the
# median of ROUNDS (9). PROGRAM is the built dshark (default: the one that `make demo` built). Needs gcc.
set -e
here=$(cd "$(dirname "$0")" && pwd)
root=$(cd "$here/../.." && pwd)
rounds=${1:-9}
program=$(realpath "${2:-$root/crates/dshark_cli/out/dshark_cli}")
[ -x "$program" ] || { echo "bench/parser/run.sh: $program is not built: make demo builds it" >&2; exit 1; }
copy=$(mktemp -d)
trap 'rm -rf "$copy"' EXIT
# All crates that a crate stands on, and itself.
below() {
    awk -v top="$1" '
        { sub(/#.*/, ""); name = $1; sub(/:$/, "", name); $1 = ""; uses[name] = $0 }
        function walk(crate, of, n, i) {
          if (seen[crate] || !(crate in uses)) return
          seen[crate] = 1; print crate
          n = split(uses[crate], of, " ")
          for (i = 1; i <= n; i++) walk(of[i])
        }
        END { walk(top) }' "$root/crates.txt"
}
for crate in $(below parser_node); do
    mkdir -p "$copy/crates/$crate"
    for part in src specs proofs; do
        [ ! -d "$root/crates/$crate/$part" ] || cp -r "$root/crates/$crate/$part" "$copy/crates/$crate/"
    done
    grep "^$crate:" "$root/crates.txt" >>"$copy/crates.txt"
done
echo "parser_bench:$(sed -n 's/^parser_node://p' "$root/crates.txt") parser_node" >>"$copy/crates.txt"
bench=$copy/crates/parser_bench
mkdir -p "$bench/src" "$bench/proofs/add_link" "$bench/proofs/drive"
cp "$here/parser_bench/main.txt" "$bench/src/main.rt"
cp "$here/parser_bench/add_link.txt" "$bench/proofs/add_link/Answers.antt"
cp "$here/parser_bench/drive.txt" "$bench/proofs/drive/Invariants.antt"
cp "$root/HANDLES" "$copy/"
gcc -O2 -o "$copy/make_capture" "$root/bench/make_capture.c"
cd "$bench"
"$copy/make_capture" capture.pcap 1000000
rt run ${JOBS:+--jobs "$JOBS"} -- read >"$copy/log" 2>&1 || { cat "$copy/log"; exit 1; }
TIMEFORMAT='%3U %3S'
for ((round = 0; round < rounds; round++)); do
    for row in parser read stack; do
        case $row in
        stack) run=("$program" stack --field 'ipv4[0].id' capture.pcap) ;;
        *) run=(out/parser_bench "$row") ;;
        esac
        { time "${run[@]}" >"$copy/said.$row"; } 2>"$copy/time"
        echo "$row $(tail -1 "$copy/time")"
    done
done | awk '
    { each = ($2 + $3) * 1000; of[$1, ++rounds[$1]] = each }
    # The rounds of a row from the least on.
    function sort(row, i, j, t) {
      for (i = 2; i <= rounds[row]; i++)
        for (j = i; j > 1 && of[row, j] < of[row, j - 1]; j--) { t = of[row, j]; of[row, j] = of[row, j - 1]; of[row, j - 1] = t }
    }
    function line(name, a, b) { printf "%-28s %8.0f %8.2f %8.0f %8.2f\n", name, a, a / least["stack"], b, b / median["stack"] }
    END {
      for (row in rounds) { sort(row); least[row] = of[row, 1]; median[row] = of[row, int((rounds[row] + 1) / 2)] }
      printf "%-28s %8s %8s %8s %8s\n", "ns of cpu a record", "least", "to stack", "median", "to stack"
      line("parser", least["parser"], median["parser"])
      line("reading the file alone", least["read"], median["read"])
      line("dshark stack --field", least["stack"], median["stack"])
    }'
echo "parser: $(cat "$copy/said.parser")"
echo "stack: $(wc -l <"$copy/said.stack") lines"
grep -q '^1000000 items, ' "$copy/said.parser"
