#!/usr/bin/env bash
# bench/grouper/run.sh [ROUNDS]
#
# The cpu of a `Grouper` beside that of `central` on one list of 1,000,000 summaries of eight captures, each packet in
# four of them, of which 1,000 groups are open at a time: through `may_add`, `add`, `raise` and `next_closed`, once in
# the order of the list, and once capture by capture in stretches of 2,048 summaries. Builds the program of the folder
# grouper_bench in a copy of the crates that it stands on, proves it and runs it, each row in a process of its own. The
# least of ROUNDS (5) counts, less what it takes to make the list. Needs /usr/bin/time.
set -e
here=$(cd "$(dirname "$0")" && pwd)
root=$(cd "$here/../.." && pwd)
rounds=${1:-5}
copy=$(mktemp -d)
trap 'rm -rf "$copy"' EXIT
for crate in ds_base watermarks window_grouper; do
    mkdir -p "$copy/crates/$crate"
    for part in src specs proofs; do
        [ ! -d "$root/crates/$crate/$part" ] || cp -r "$root/crates/$crate/$part" "$copy/crates/$crate/"
    done
    grep "^$crate:" "$root/crates.txt" >>"$copy/crates.txt"
done
echo 'grouper_bench: ds_base window_grouper' >>"$copy/crates.txt"
bench=$copy/crates/grouper_bench
mkdir -p "$bench/src"
cp "$here/grouper_bench/main.txt" "$bench/src/main.rt"
for called in closed feed in_order by_captures finish; do
    mkdir -p "$bench/proofs/$called"
    cp "$here/grouper_bench/$called.txt" "$bench/proofs/$called/Invariants.antt"
done
cp "$root/HANDLES" "$copy/"
cd "$bench"
rt run -- list >"$copy/log" 2>&1 || { cat "$copy/log"; exit 1; }
for ((round = 0; round < rounds; round++)); do
    for row in list central in_order by_captures; do
        groups=$(/usr/bin/time -o "$copy/time" -f '%U %S %M' out/grouper_bench "$row")
        echo "$row ${groups% groups} $(cat "$copy/time")"
    done
done | awk '
    { cpu = $3 + $4; if (!($1 in least) || cpu < least[$1]) { least[$1] = cpu; user[$1] = $3; sys[$1] = $4 } groups[$1] = $2; peak[$1] = $5 }
    END {
      n = split("list central in_order by_captures", row, " ")
      printf "%-12s %10s %8s %8s %8s %18s %12s\n", "row", "groups", "user s", "sys s", "peak MB", "s without the list", "to central"
      for (i = 1; i <= n; i++) {
        r = row[i]; own = least[r] - least["list"]; whole = least["central"] - least["list"]
        printf "%-12s %10s %8.2f %8.2f %8.0f %18.2f %12.2f\n", r, groups[r], user[r], sys[r], peak[r] / 1024, own, (whole > 0 ? own / whole : 0)
      }
    }'
