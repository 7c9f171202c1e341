#!/usr/bin/env bash
# Runs tools/plot-report on the stored report of the sample network, on one with every kind of verdict, and on
# reports that are broken in one place each, of which it has to name the line and what is wrong. Where matplotlib is
# installed the pictures are drawn too.
#
# It ends with 1 on a difference. It skips with a line, and ends with 0, where python3 is missing.
export LC_ALL=C
cd "$(dirname "$0")/../.." || exit 2
command -v python3 >/dev/null || { echo 'tests/peers/plot_report.sh: skipped: python3 is not installed'; exit 0; }
room=$(mktemp -d) || exit 2
trap 'rm -rf "$room"' EXIT
report=samples/network/job.report
passed=0
failed=0

# Runs a command with these words, and compares its status, its output and its line on the standard error.
ends() { # WHAT STATUS OUTPUT LINE COMMAND..
    local what=$1 status=$2 ended
    printf %s "${3:+$3$'\n'}" >"$room/expected"
    printf %s "${4:+$4$'\n'}" >>"$room/expected"
    shift 4
    "$@" >"$room/output" 2>"$room/line"
    ended=$?
    if [ "$ended" -eq "$status" ] && cat "$room/output" "$room/line" | cmp -s - "$room/expected"; then
        passed=$((passed + 1))
    else
        failed=$((failed + 1))
        echo "FAILED $what: status $ended, expected $status; expected <, was >"
        cat "$room/output" "$room/line" | diff "$room/expected" - | head -8
    fi
}

# Breaks the report by a script of sed, and has it refused.
refused() { # LINE WHAT SED..
    local line=$1 what=$2
    shift 2
    sed "$@" "$report" >"$room/broken"
    ends "$what" 1 '' "plot-report: $room/broken: line $line: $what" tools/plot-report --summary "$room/broken"
}

network='verdicts s1 groups=6 ok=5 loop=1
verdicts s4 groups=1 ok=1
delays s1 s2 count=6 least=39874 mean=40932 greatest=42008
delays s2 s1 count=1 least=45000 mean=45000 greatest=45000
delays s2 s3 count=6 least=61992 mean=63454 greatest=65215
delays s2 s4 count=1 least=119875 mean=119875 greatest=119875
delays s3 s2 count=2 least=64600 mean=65335 greatest=66070
delays s3 s4 count=4 least=57950 mean=824433 greatest=3120000
delays s4 s3 count=1 least=60400 mean=60400 greatest=60400
capture s1 records=8 accepted=7
capture s2 records=8 accepted=8
capture s3 records=7 accepted=7
capture s4 records=7 accepted=6
all groups=7 summaries=28'
ends 'the sample network' 0 "$network" '' tools/plot-report --summary "$report"
ends 'the standard input' 0 "$network" '' tools/plot-report --summary <"$report"

cat >"$room/kinds" <<'REPORT'
G 0 b 0 key=0 n=1 ok
G 0 a 0 key=340282366920938463463374607431768211455,1 n=2 loop a 64 62
G 1 a 2 key=1 n=1 drop b
G 1 a 3 key=1 n=1 path 0
G 1 a 4 key=1 n=1 rewrite 0 1
G 1 a 5 key=1 n=1 value 340282366920938463463374607431768211455
G 18446744073709551615 a 6 key=1 n=1 undefined
P a a count=1 sum=0 least=0 greatest=0 classes=0:1
C b records=2 unmatched=1 late=0 accepted=1 cut
C a records=7 unmatched=0 late=0 accepted=7 whole
C _9 records=1 unmatched=0 late=1 accepted=0 whole
E groups=7 summaries=8
REPORT
ends 'every kind of verdict' 0 'verdicts b groups=1 ok=1
verdicts a groups=6 loop=1 drop=1 path=1 rewrite=1 value=1 undefined=1
delays a a count=1 least=0 mean=0 greatest=0
capture b records=2 accepted=1
capture a records=7 accepted=7
capture _9 records=1 accepted=0
all groups=7 summaries=8' '' tools/plot-report --summary "$room/kinds"

group="not of the form 'G <time> <capture> <record> key=<k,k,..> n=<members> <verdict>'"
delays="not of the form 'P <from> <to> count=<n> sum=<n> least=<n> greatest=<n> classes=<class:n,..>'"
capture="not of the form 'C <name> records=<n> unmatched=<n> late=<n> accepted=<n> <whole or cut>'"
nothing="it begins with none of 'G ', 'P ', 'C ' and 'E '"
refused 2 "$group" '2s/ n=.*//'
refused 2 "$group" '2s/key=/key=0/'
refused 2 "$group" '2s/ n=/  n=/'
refused 2 "$group" '2s/s1/1s/'
refused 8 "$delays" '8s/,*classes=.*/classes=/'
refused 12 "$delays" '12s/,17/,,17/'
refused 15 "$capture" '15s/whole/hole/'
refused 1 "unknown verdict 'ok\\r'" 's/$/\r/'
refused 3 "unknown verdict 'loop s2 63'" '3s/ 61$//'
refused 3 "unknown verdict 'lost'" '3s/loop.*/lost/'
refused 3 'capture s9 has no C line' '3s/loop s2/loop s9/'
refused 4 'capture s5 has no C line' '4s/ s1/ s5/'
refused 9 'capture s5 has no C line' '9s/s1/s5/'
refused 5 'its time is before that of the line above' '5s/4 /0 /; 5s/450000/150000/'
refused 2 '18446744073709551616 is not below 2^64' '2s/ [0-9]* / 18446744073709551616 /'
refused 12 'its classes do not add up to its count' '12s/17:1/17:2/'
refused 12 'its classes do not rise' '12s/16:1,17:1/17:1,16:1/'
refused 12 'its first and last class are not those of its least and greatest' '12s/17:1/18:1/'
refused 12 'such delays have no such sum' '12s/sum=1/sum=2/'
refused 15 'its records are not the sum of unmatched, late and accepted' '15s/late=0/late=1/'
refused 16 'capture s1 has a C line already' '16s/s2/s1/'
refused 9 'P lines do not stand in the order of the C lines' -e '8{h;d}' -e '9G'
refused 8 'a G line after a P line' -e '7{h;d}' -e '8G'
refused 15 'a P line after a C line' -e '14{h;d}' -e '15G'
refused 19 'groups=8, and there are 7 G lines' '19s/7/8/'
refused 19 'summaries=27, and the G lines have 28 members' '19s/28/27/'
refused 19 'summaries=28, and the C lines have 27 accepted' '16s/records=8/records=7/; 16s/accepted=8/accepted=7/'
refused 18 'the P lines have 20 delays, and the G lines have 21' '14d'
refused 15 'there is no C line above' '/^C/d'
refused 19 'the E line is missing' '19d'
refused 20 'a line after the E line' '19p'
refused 1 'the E line is missing' -n ''
refused 5 "$nothing" '5s/^/ /'
refused 1 "$nothing" '1s/G/g/'
head -c -1 "$report" >"$room/broken"
ends 'a last line without its end' 1 '' "plot-report: $room/broken: line 19: the line has no end" tools/plot-report --summary "$room/broken"
ends 'a capture' 1 '' "plot-report: samples/one-link.pcap: line 1: $nothing" tools/plot-report samples/one-link.pcap
ends 'a missing file' 1 '' "plot-report: [Errno 2] No such file or directory: '$room/missing'" tools/plot-report "$room/missing"

# A folder in which matplotlib is there and cannot be loaded.
mkdir "$room/without"
echo 'raise ImportError' >"$room/without/matplotlib.py"
ends 'no matplotlib' 2 '' 'plot-report: matplotlib is missing: install it (apt-get install python3-matplotlib, or python3 -m pip install matplotlib); --summary does without' \
    env PYTHONPATH="$room/without" tools/plot-report --out "$room/none.png" "$report"

# Its reader may end early.
(tools/plot-report --summary "$report") 2>"$room/line" | true
if [ -s "$room/line" ]; then failed=$((failed + 1)) && echo "FAILED a closed pipe: $(cat "$room/line")"; else passed=$((passed + 1)); fi

drawn=no
for python in python3 /usr/bin/python3; do
    "$python" -c 'import matplotlib' 2>/dev/null || continue
    for drawn in "$report" "$room/kinds" crates/dshark_cli/stdout; do
        rm -f "$room/picture.png"
        ends "the picture of $drawn" 0 '' '' "$python" tools/plot-report --out "$room/picture.png" "$drawn"
        if [ "$(head -c 8 "$room/picture.png" | od -An -tx1)" != ' 89 50 4e 47 0d 0a 1a 0a' ] || [ "$(wc -c <"$room/picture.png")" -lt 4096 ]; then
            failed=$((failed + 1))
            echo "FAILED the picture of $drawn: it is no PNG of 4096 bytes or more"
        fi
    done
    "$python" tools/plot-report --out "$room/none.png" "$room/broken" 2>/dev/null
    ends 'the picture cannot be written' 1 '' "plot-report: [Errno 2] No such file or directory: '$room/no/picture.png'" \
        "$python" tools/plot-report --out "$room/no/picture.png" "$report"
    break
done
[ "$drawn" != no ] || echo 'tests/peers/plot_report.sh: pictures skipped: matplotlib is not installed'
[ ! -e "$room/none.png" ] || { failed=$((failed + 1)); echo 'FAILED: a picture was drawn that should not be'; }

echo "tests/peers/plot_report.sh: $passed passed, $failed failed"
[ "$failed" -eq 0 ]
