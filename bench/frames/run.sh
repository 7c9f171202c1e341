#!/usr/bin/env bash
# Times `encode` and then `decode` of an Item with one key and two values, beside a C program that writes the same 75
# bytes and reads them into a struct of the same size, and the throughput of SHA-256: builds the program of the folder
# frame_bench in a copy of the crates that it stands on, proves it and runs it. Needs gcc, and has a row of clang where that is there.
set -e
here=$(cd "$(dirname "$0")" && pwd)
crates=$(cd "$here/../../crates" && pwd)
copy=$(mktemp -d)
trap 'rm -rf "$copy"' EXIT
for crate in ds_base node_frames; do
    mkdir -p "$copy/crates/$crate"
    for part in src specs proofs; do
        [ ! -d "$crates/$crate/$part" ] || cp -r "$crates/$crate/$part" "$copy/crates/$crate/"
    done
done
bench=$copy/crates/frame_bench
mkdir -p "$bench/src" "$bench/proofs/there_and_back" "$bench/proofs/time_frames"
cp "$here/frame_bench/main.txt" "$bench/src/main.rt"
cp "$here/frame_bench/answers.txt" "$bench/proofs/there_and_back/Answers.antt"
cp "$here/frame_bench/invariants.txt" "$bench/proofs/time_frames/Invariants.antt"
grep -E '^(ds_base|node_frames)( |:)' "$crates/../crates.txt" >"$copy/crates.txt"
echo 'frame_bench: ds_base node_frames sha2' >>"$copy/crates.txt"
cp "$crates/../HANDLES" "$copy/"
for compiler in gcc clang; do
    command -v "$compiler" >/dev/null || { echo "$compiler is not installed"; continue; }
    "$compiler" -O2 -o "$copy/frames" "$here/frames.c"
    echo "C by $compiler -O2:"
    "$copy/frames"
done
cd "$bench"
rt run
