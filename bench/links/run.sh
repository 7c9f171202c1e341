#!/usr/bin/env bash
# bench/links/run.sh [ROUNDS]
#
# The cpu of a million Items with one key and two values over one link of 16 credits on one thread: `offer`, `pump`,
# `pump`, `pull` and `grant` in turn, both ends of one `ring_link`. Beside it stands a C program that spells the same
# frames, copies them into a ring of 4 KiB and out of it with the same cuts, and reads them. What the digests of the two
# ends take is told by two more rows, which spell the same frames, and one of which hashes them twice, frame by frame.
# Builds the program of the folder link_bench in a copy of the crates that it stands on, proves it and runs it, each row
# in a process of its own: the C program on ten million, so that no row has shorter rounds than the others. Prints the
# least and the median of ROUNDS (9), beside the faster of the two builds of the C program, by gcc and by clang where it
# is there. Where JOBS is set, so many processors prove. Needs gcc.
set -e
here=$(cd "$(dirname "$0")" && pwd)
root=$(cd "$here/../.." && pwd)
rounds=${1:-9}
copy=$(mktemp -d)
trap 'rm -rf "$copy"' EXIT
for crate in ds_base node_frames byte_rings ghost_list credit_link; do
    mkdir -p "$copy/crates/$crate"
    for part in src specs proofs; do
        [ ! -d "$root/crates/$crate/$part" ] || cp -r "$root/crates/$crate/$part" "$copy/crates/$crate/"
    done
    grep "^$crate:" "$root/crates.txt" >>"$copy/crates.txt"
done
echo 'link_bench: ds_base node_frames credit_link sha2' >>"$copy/crates.txt"
bench=$copy/crates/link_bench
mkdir -p "$bench/src" "$bench/proofs/spell"
cp "$here/link_bench/main.txt" "$bench/src/main.rt"
cp "$here/link_bench/answers.txt" "$bench/proofs/spell/Answers.antt"
for called in alone over_link; do
    mkdir -p "$bench/proofs/$called"
    cp "$here/link_bench/$called.txt" "$bench/proofs/$called/Invariants.antt"
done
cp "$root/HANDLES" "$copy/"
rows='gcc link spelled digests'
gcc -O2 -o "$copy/links.gcc" "$here/links.c"
if command -v clang >/dev/null; then
    clang -O2 -o "$copy/links.clang" "$here/links.c"
    rows="clang $rows"
fi
cd "$bench"
rt run ${JOBS:+--jobs "$JOBS"} -- spelled >"$copy/log" 2>&1 || { cat "$copy/log"; exit 1; }
TIMEFORMAT='%3U %3S'
for ((round = 0; round < rounds; round++)); do
    for row in $rows; do
        case $row in gcc | clang) run=("$copy/links.$row") ;; *) run=(out/link_bench "$row") ;; esac
        { time "${run[@]}" >"$copy/said.$row"; } 2>"$copy/time"
        echo "$row $(cat "$copy/time")"
    done
done | awk '
    { each = ($2 + $3) * ($1 ~ /^(gcc|clang)$/ ? 100 : 1000); of[$1, ++rounds[$1]] = each }
    # The rounds of a row from the least on.
    function sort(row, i, j, t) {
      for (i = 2; i <= rounds[row]; i++)
        for (j = i; j > 1 && of[row, j] < of[row, j - 1]; j--) { t = of[row, j]; of[row, j] = of[row, j - 1]; of[row, j - 1] = t }
    }
    function line(name, a, b) { printf "%-28s %8.0f %8.2f %8.0f %8.2f\n", name, a, a / least_c, b, b / median_c }
    END {
      for (row in rounds) { sort(row); least[row] = of[row, 1]; median[row] = of[row, int((rounds[row] + 1) / 2)] }
      c = ("clang" in least) && least["clang"] < least["gcc"] ? "clang" : "gcc"
      least_c = least[c]; median_c = median[c]
      a = least["digests"] - least["spelled"]; b = median["digests"] - median["spelled"]
      printf "%-28s %8s %8s %8s %8s\n", "ns of cpu a frame", "least", "to C", "median", "to C"
      line("C by gcc -O2", least["gcc"], median["gcc"])
      if ("clang" in least) line("C by clang -O2", least["clang"], median["clang"])
      line("link", least["link"], median["link"])
      line("the digests of both ends", a, b)
      line("link without its digests", least["link"] - a, median["link"] - b)
    }'
for row in $rows; do
    echo "$row: $(cat "$copy/said.$row")"
    case $row in gcc | clang | link) grep -qE '^10*0{6} came, 16 of 16 ' "$copy/said.$row" ;; esac
done
