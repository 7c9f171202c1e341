#!/usr/bin/env bash
# Times the four judges on groups of up to 1,000,000 members: builds the program of the folder judge_bench in a copy
# of the crates that it stands on, proves it and runs it. Twice the members may take twice the time, and no more.
set -e
here=$(cd "$(dirname "$0")" && pwd)
root=$(cd "$here/../.." && pwd)
copy=$(mktemp -d)
trap 'rm -rf "$copy"' EXIT
for crate in ds_base path_judges rewrite_judge; do
    mkdir -p "$copy/crates/$crate"
    for part in src specs proofs; do
        [ ! -d "$root/crates/$crate/$part" ] || cp -r "$root/crates/$crate/$part" "$copy/crates/$crate/"
    done
    grep "^$crate:" "$root/crates.txt" >>"$copy/crates.txt"
done
echo 'judge_bench: ds_base path_judges rewrite_judge' >>"$copy/crates.txt"
bench=$copy/crates/judge_bench
mkdir -p "$bench/src" "$bench/proofs/group" "$bench/proofs/rules"
cp "$here/judge_bench/main.txt" "$bench/src/main.rt"
cp "$here/judge_bench/group.txt" "$bench/proofs/group/Invariants.antt"
cp "$here/judge_bench/rules.txt" "$bench/proofs/rules/Invariants.antt"
cp "$root/HANDLES" "$copy/"
cd "$bench"
rt run
