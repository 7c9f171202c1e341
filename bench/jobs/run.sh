#!/usr/bin/env bash
# Times the reading of four jobs of nearly a mebibyte, ten times each, beside the reading of the same JSON by
# serde_json alone: builds the program of the folder job_bench in a copy of the crates that it stands on, proves it and
# runs it. Prints microseconds; the job may take 50 times as long.
set -e
here=$(cd "$(dirname "$0")" && pwd)
root=$(cd "$here/../.." && pwd)
copy=$(mktemp -d)
trap 'rm -rf "$copy"' EXIT
below='ds_base field_table query_tokens query_syntax query_lang path_judges rewrite_judge job_values job_table job_text summary_spec'
for crate in $below; do
    mkdir -p "$copy/crates/$crate"
    for part in src specs proofs; do
        [ ! -d "$root/crates/$crate/$part" ] || cp -r "$root/crates/$crate/$part" "$copy/crates/$crate/"
    done
    grep "^$crate:" "$root/crates.txt" >>"$copy/crates.txt"
done
echo 'job_bench: ds_base serde_json summary_spec' >>"$copy/crates.txt"
bench=$copy/crates/job_bench
mkdir -p "$bench/src"
cp "$here/job_bench/main.txt" "$bench/src/main.rt"
cp "$root/HANDLES" "$copy/"
cd "$bench"
rt run
