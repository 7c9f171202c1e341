#!/usr/bin/env bash
# Runs tools/report on the stored reports of the sample network and on one with every kind of verdict, as JSON, as CSV
# and as a summary, and on what is no report. The forms of its fields are compared with the field table.
#
# It ends with 1 on a difference. It skips with a line, and ends with 0, where python3 is missing.
export LC_ALL=C.UTF-8 PYTHONDONTWRITEBYTECODE=1
cd "$(dirname "$0")/../.." || exit 2
command -v python3 >/dev/null || { echo 'tests/tools/report.sh: skipped: python3 is not installed'; exit 0; }
room=$(mktemp -d) || exit 2
trap 'rm -rf "$room"' EXIT
network=samples/network
tool=$PWD/tools/report
passed=0
failed=0

ends() { # WHAT STATUS EXPECTED WORD..
    local what=$1 status=$2 ended
    printf '%s\n' "$3" >"$room/expected"
    shift 3
    "$tool" "$@" >"$room/printed" 2>&1
    ended=$?
    if [ "$ended" -eq "$status" ] && cmp -s "$room/expected" "$room/printed"; then
        passed=$((passed + 1))
    else
        failed=$((failed + 1))
        echo "FAILED $what: status $ended, expected $status; expected <, was >"
        diff "$room/expected" "$room/printed" | head -20
    fi
}

cat >"$room/kinds" <<'REPORT'
G 0 b 0 key=0,1 n=1 ok
G 0 a 0 key=340282366920938463463374607431768211455,167772161 n=2 loop a 64 62
G 1 a 2 key=2,3 n=1 drop b
G 1 a 3 key=3,3 n=1 path 0
G 1 a 4 key=4,3 n=1 rewrite 0 1
G 1 a 5 key=5,3 n=1 value 340282366920938463463374607431768211455
G 18446744073709551615 a 6 key=6,3 n=1 undefined
P a a count=1 sum=0 least=0 greatest=0 classes=0:1
C b records=2 unmatched=1 late=0 accepted=1 cut
C a records=7 unmatched=0 late=0 accepted=7 whole
C _9 records=1 unmatched=0 late=1 accepted=0 whole
E groups=7 summaries=8
REPORT
cat >"$room/job" <<'JOB'
{"vars": [{"name": "to", "take": ["ipv6[0].dst"]}, {"name": "from", "take": ["ipv4[-1].src", "ipv4[0].src"]}], "key": ["to", "from"]}
JOB

summary='groups: 7 (6 ok, 1 loop)
copies: 28
capture s1: 8 records, 7 accepted, 1 unmatched, 0 late, whole
capture s2: 8 records, 8 accepted, 0 unmatched, 0 late, whole
capture s3: 7 records, 7 accepted, 0 unmatched, 0 late, whole
capture s4: 7 records, 6 accepted, 1 unmatched, 0 late, whole
look at s1: 1 of 8 records lack a variable of the job, or its filter leaves them out
look at s4: 1 of 7 records lack a variable of the job, or its filter leaves them out'
ends 'a summary' 0 "$summary" --summary "$network/job.report"
ends 'what is printed by default' 0 "$summary" "$network/job.report"
ends 'the standard input' 0 "$summary" <"$network/job.report"
ends 'late and cut' 0 'groups: 7 (1 ok, 1 loop, 1 drop, 1 path, 1 rewrite, 1 value, 1 undefined)
copies: 8
capture b: 2 records, 1 accepted, 1 unmatched, 0 late, cut
capture a: 7 records, 7 accepted, 0 unmatched, 0 late, whole
capture _9: 1 records, 0 accepted, 0 unmatched, 1 late, whole
look at b: 1 of 2 records lack a variable of the job, or its filter leaves them out
look at b: the file ends inside a record, so its last packets are missing
look at _9: 1 of 1 records are late: out of order by more than the skew' "$room/kinds"

head='time,utc,capture,record,key,members,verdict,at,numbers'
ends 'the group that is not ok' 0 "$head
1700000000000200000,2023-11-14T22:13:20.000200000Z,s1,3,1003,6,loop,s2,63 61" --csv --not-ok "$network/job.report"
ends 'the packet that is lost, by the names of its job' 0 "${head/key/key.id}
1700000000000300000,2023-11-14T22:13:20.000300000Z,s1,4,1004,3,drop,s3," \
    --csv --not-ok --job "$network/drop.json" "$network/drop.report"
ends 'every kind of verdict' 0 "$head
0,1970-01-01T00:00:00.000000000Z,b,0,\"0,1\",1,ok,,
0,1970-01-01T00:00:00.000000000Z,a,0,\"340282366920938463463374607431768211455,167772161\",2,loop,a,64 62
1,1970-01-01T00:00:00.000000001Z,a,2,\"2,3\",1,drop,b,
1,1970-01-01T00:00:00.000000001Z,a,3,\"3,3\",1,path,,0
1,1970-01-01T00:00:00.000000001Z,a,4,\"4,3\",1,rewrite,,0 1
1,1970-01-01T00:00:00.000000001Z,a,5,\"5,3\",1,value,,340282366920938463463374607431768211455
18446744073709551615,2554-07-21T23:34:33.709551615Z,a,6,\"6,3\",1,undefined,," --csv "$room/kinds"
ends 'addresses' 0 "${head/key/key.to,key.from}
0,1970-01-01T00:00:00.000000000Z,b,0,0000:0000:0000:0000:0000:0000:0000:0000,0.0.0.1,1,ok,,
0,1970-01-01T00:00:00.000000000Z,a,0,ffff:ffff:ffff:ffff:ffff:ffff:ffff:ffff,10.0.0.1,2,loop,a,64 62" \
    --csv --job "$room/job" <(sed -e '3,7d' -e 's/records=7/records=2/; s/accepted=7/accepted=2/' \
        -e 's/groups=7 summaries=8/groups=2 summaries=3/' "$room/kinds")
ends 'a job with another key' 1 'report: line 1: the key has 1 numbers, and that of the job has 2' \
    --csv --job "$room/job" "$network/job.report"
ends 'what is no job' 1 "report: $room/kinds: it is no job that dshark reads (dshark check says why)" \
    --job "$room/kinds" "$network/job.report"
ends 'a missing file' 1 "report: [Errno 2] No such file or directory: '$room/missing'" "$room/missing"
sed '3s/ 61$//' "$network/job.report" >"$room/broken"
for form in --summary --json --csv; do
    ends "what is no report, $form" 1 "report: $room/broken: line 3: unknown verdict 'loop s2 63'" "$form" "$room/broken"
done
tools/report --json --csv "$room/kinds" >/dev/null 2>&1
[ $? -eq 2 ] && passed=$((passed + 1)) || { failed=$((failed + 1)); echo 'FAILED: two forms at once are not refused with 2'; }
complaint=$( (tools/report --csv <(seq -f 'G %.0f a 1 key=1 n=1 ok' 20000; echo 'C a records=20000 unmatched=0 late=0 accepted=20000 whole'; echo 'E groups=20000 summaries=20000') | head -1 >/dev/null) 2>&1)
[ -z "$complaint" ] && passed=$((passed + 1)) || { failed=$((failed + 1)); echo "FAILED: a closed pipe: $complaint"; }

# JSON is read again, and the forms of fields are those of the field table.
python3 - "$network" "$room/kinds" <<'PROGRAM'
import json
import re
import subprocess
import sys

network, kinds = sys.argv[1:]
wrong = 0


def same(what, expected, got):
    global wrong
    if expected != got:
        wrong += 1
        print(f"FAILED {what}: expected {expected}, was {got}")


def printed(*words):
    return json.loads(subprocess.run(["tools/report", *words], capture_output=True, check=True).stdout)


report = printed("--json", f"{network}/job.report")
same("totals", {"groups": 7, "summaries": 28}, report["totals"])
same("groups", [1001, 1002, 1003, 1004, 1005, 1006, 2001], [group["key"][0] for group in report["groups"]])
same("a loop", {"time": 1700000000000200000, "utc": "2023-11-14T22:13:20.000200000Z", "capture": "s1", "record": 3,
                "key": [1003], "members": 6, "verdict": "loop", "at": "s2", "numbers": [63, 61]}, report["groups"][2])
same("delays", {"from": "s3", "to": "s4", "count": 4, "sum": 3297735, "least": 57950, "greatest": 3120000,
                "classes": {"16": 3, "22": 1}}, report["delays"][5])
same("a capture", {"name": "s4", "records": 7, "unmatched": 1, "late": 0, "accepted": 6, "ending": "whole"},
     report["captures"][3])
same("names of the key", {"id": 1003},
     printed("--json", "--job", f"{network}/job.json", f"{network}/job.report")["groups"][2]["key"])
same("wide numbers", [str(2**128 - 1), 167772161], printed("--json", kinds)["groups"][1]["key"])
same("a wide value", [str(2**128 - 1)], printed("--json", "--not-ok", kinds)["groups"][4]["numbers"])

sys.path.insert(0, "tools")
from fields import FIELDS
with open("crates/field_table/src/table.rt", encoding="utf-8") as file:
    table = file.read()
forms = {}
for kind, rows in re.findall(r"static (\w+): .*? = \[(.*?)\n\];", table, re.S):
    for name, form in re.findall(r'row!\("(\w+)", .*, \d+, (\w+)\)', rows):
        for word in ([kind.lower(), "icmp6"] if kind == "ICMP" else [kind.lower()]):
            forms[f"{word}.{name}"] = form
same("the number of fields", 64, len(forms))
same("forms of fields", forms, {f"{kind}.{name}": form for kind, names in FIELDS.items() for name, form in names.items()})
sys.exit(wrong)
PROGRAM
wrong=$?
failed=$((failed + wrong))
passed=$((passed + 10 - wrong))

# The copies of a packet, where the program is built: their times are those of samples/network/make_network.py.
program=${DSHARK:-crates/dshark_cli/out/dshark_cli}
if [ -x "$program" ]; then
    DSHARK=$(realpath "$program")
    export DSHARK
    cd "$network" || exit 2
    ends 'the copies of a packet' 0 's1 record 3 +0 ns s1.pcap frame 4
s2 record 2 +40510 ns s2.pcap frame 3
s3 record 2 +103930 ns s3.pcapng frame 3
s2 record 4 +170000 ns s2.pcap frame 5
s3 record 4 +235215 ns s3.pcapng frame 5
s4 record 2 +294000 ns s4.pcap frame 3' --members 3 --job job.json job.report
    ends 'the copies on an interface' 0 'back record 0 +0 ns s3.pcapng frame 7
both record 6 +0 ns s3.pcapng frame 7' --members "$(grep -n ' back 0 ' interfaces.report | cut -d : -f 1)" --job interfaces.json interfaces.report
    ends 'a line of no packet' 1 'report: line 8 is no G line' --members 8 --job job.json job.report
    ends 'captures of another report' 1 'report: line 1: the packet has 4 copies, and the captures of the job have 2: are they those of the report?' \
        --members 1 --job interfaces.json job.report
    ends 'a job that is refused' 1 'report: job.report: job: whole[0]: not json (explain job.report shows the place)' --members 1 --job job.report job.report
fi

echo "tests/tools/report.sh: $passed passed, $failed failed"
[ "$failed" -eq 0 ]
