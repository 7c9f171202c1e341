#!/usr/bin/env bash
# Holds the completions in completions/ to --help and the table of fields: tools/make-completions makes them again, and
# they are the same. Then bash completes some words by them; zsh and fish read theirs where they are installed.
#
# It needs no built program. It ends with 1 on a difference, and skips with a line, and ends with 0, where python3 is
# missing.
export LC_ALL=C.UTF-8 PYTHONDONTWRITEBYTECODE=1
cd "$(dirname "$0")/../.." || exit 2
command -v python3 >/dev/null || { echo 'tests/tools/completions.sh: skipped: python3 is not installed'; exit 0; }
room=$(mktemp -d) || exit 2
trap 'rm -rf "$room"' EXIT
passed=0
failed=0

is() { # WHAT EXPECTED GOT
    if [ "$2" = "$3" ]; then
        passed=$((passed + 1))
    else
        failed=$((failed + 1))
        echo "FAILED $1: expected <, was >"
        diff <(echo "$2") <(echo "$3") | head -20
    fi
}

is 'make-completions' "0 " "$(tools/make-completions "$room/made" 2>&1; echo "$? ")"
is 'completions/ is current (else run tools/make-completions)' '' "$(diff -r "$room/made" completions)"

# Faults, on a copy of what it reads.
mkdir -p "$room/copy/crates/field_table"
cp -r tools "$room/copy"
cp -r crates/field_table/src "$room/copy/crates/field_table"
is 'no HELP' '1 make-completions: no text HELP in crates/*/src, or several' \
    "$(said=$("$room/copy/tools/make-completions" "$room/none" 2>&1); echo "$? $said")"
cat >"$room/copy/crates/field_table/src/help.rt" <<'HELP'
pub const HELP: &str = "\
usage: it

  run JOB [--fast N]
      Runs.
";
HELP
is 'an option that is not explained' '1 make-completions: --help says of run other options than it explains' \
    "$(said=$("$room/copy/tools/make-completions" "$room/none" 2>&1); echo "$? $said")"
tools/make-completions --wrong >/dev/null 2>&1
is 'a wrong word' 2 "$?"

# What bash offers for these words, the last of which is being written.
offered() { # WORD..
    bash -c '
        . completions/dshark.bash
        COMP_WORDS=("$@")
        COMP_CWORD=$(($# - 1))
        _dshark
        printf "%s\n" "${COMPREPLY[@]}" | sort | tr "\n" " "' bash "$@" 2>&1
}
is 'the commands' '--help --version central check count run sample stack ' "$(offered dshark '')"
is 'a command' 'central check count ' "$(offered dshark c | sed 's/stack //')"
is 'a field' 'ipv4[0].id ipv4[0].ihl ' "$(offered dshark count 'ipv4[0].i')"
is 'a field in quotes' 'udp[-1].dport ' "$(offered dshark count "'udp[-1].d")"
is 'a window' ' ' "$(offered dshark count 'ipv4[0].id' '')"
is 'a capture' 'samples/one-link.pcap ' "$(offered dshark count 'ipv4[0].id' 1 samples/one)"
is 'a job' 'samples/network/job.json samples/network/job.report ' "$(offered dshark central samples/network/j)"
is 'options' '--field --port ' "$(offered dshark stack --)"
is 'the value of an option' 'gre[-1].key gre[0].key ' "$(offered dshark stack a --field gre | tr ' ' '\n' | grep key | tr '\n' ' ')"
is 'the value after =' 'vxlan[-1].vni vxlan[0].vni ' "$(offered dshark stack --field = vxlan | tr ' ' '\n' | grep vni | tr '\n' ' ')"
is 'a capture after an option' 'samples/one-link.pcap ' "$(offered dshark stack --port 4789 samples/one)"
is 'options after the capture' '--field --port ' "$(offered dshark stack a '')"
is 'the options of another command' '--credits --groupers --parsers --processors ' "$(offered dshark sample 7 '')"
is 'nothing more' ' ' "$(offered dshark --help '')"
is 'no such command' ' ' "$(offered dshark walk '')"
if command -v zsh >/dev/null; then is zsh '' "$(zsh -n completions/_dshark 2>&1)"; fi
if command -v fish >/dev/null; then is fish '' "$(fish --no-execute completions/dshark.fish 2>&1)"; fi

echo "tests/tools/completions.sh: $passed passed, $failed failed"
[ "$failed" -eq 0 ]
