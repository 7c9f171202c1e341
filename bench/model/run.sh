#!/usr/bin/env bash
# bench/model/run.sh
#
# Runs a model of a run, which holds the promises of run_law to examples: nodes that take frames off plain lists and put
# others, in turns drawn from a seed, over all shapes of one to three nodes of each kind. After each turn what can be
# decided of the node's promise is checked, and what was written beside the report of the same captures; and five nodes
# that break their promise are found. Its two tests are interpreted and not proved: their proof takes too long for the
# gate. Builds the model in a copy of the crates, which takes some minutes the first time.
set -e
here=$(cd "$(dirname "$0")" && pwd)
root=$(cd "$here/../.." && pwd)
copy=$(mktemp -d)
trap 'rm -rf "$copy"' EXIT
mkdir "$copy/crates"
for crate in "$root"/crates/*/; do
    mkdir "$copy/crates/$(basename "$crate")"
    for part in src specs proofs; do
        [ ! -d "$crate/$part" ] || cp -r "$crate/$part" "$copy/crates/$(basename "$crate")/"
    done
done
cp "$root/HANDLES" "$root/crates.txt" "$copy/"
echo 'run_model: ds_base query_lang summary_spec key_select node_frames window_grouper answer_text central_report run_law' >>"$copy/crates.txt"
model=$copy/crates/run_model
mkdir -p "$model/src/tests" "$model/proofs/tests/captures/report"
cp "$here/run_model/lib.txt" "$model/src/lib.rt"
cp "$here/run_model/tests.txt" "$model/src/tests.rt"
for part in captures frames nodes promises; do
    cp "$here/run_model/$part.txt" "$model/src/tests/$part.rt"
done
cp "$here/run_model/answers.txt" "$model/proofs/tests/captures/report/Answers.antt"
cd "$model"
rt try --test
