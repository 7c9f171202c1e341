#!/usr/bin/env bash
# Runs tools/explain on faults of a job whose places are known, and on what is no JSON in each way; has it find a place
# for each job of tests/jobs/refused.txt; and, where the program is built, has it run the program.
#
# It ends with 1 on a difference. It skips with a line, and ends with 0, where python3 is missing.
export LC_ALL=C.UTF-8 PYTHONDONTWRITEBYTECODE=1
cd "$(dirname "$0")/../.." || exit 2
command -v python3 >/dev/null || { echo 'tests/tools/explain.sh: skipped: python3 is not installed'; exit 0; }
room=$(mktemp -d) || exit 2
trap 'rm -rf "$room"' EXIT
passed=0
failed=0

# Compares the status and all that is printed, without the name of the job.
ends() { # WHAT STATUS EXPECTED WORD..
    local what=$1 status=$2 ended
    printf '%s\n' "$3" >"$room/expected"
    shift 3
    tools/explain "$@" 2>&1 | sed "s|$room/||g" >"$room/printed"
    ended=${PIPESTATUS[0]}
    if [ "$ended" -eq "$status" ] && cmp -s "$room/expected" "$room/printed"; then
        passed=$((passed + 1))
    else
        failed=$((failed + 1))
        echo "FAILED $what: status $ended, expected $status; expected <, was >"
        diff "$room/expected" "$room/printed" | head -20
    fi
}

cat >"$room/job" <<'JOB'
{
  "version": 1,
  "captures": [
    {"name": "a", "file": "a.pcap"},
    {"name": "b", "file": "b.pcap"}
  ],
  "vars": [{"name": "id", "take": ["ipv4[0].id", "ipv4[-17].id"]}],
	"filter": "id \u003e 1 &&& 2",
  "key": ["id", "ttl"],
  "window": 1e6,
  "query": {
    "kind": "path",
    "allow": ["a b", "a c"],
    "hop": "ttl"
  }
}
JOB
job=$room/job
ends 'an element of a list' 1 'job:9:17: key[1]: unknown: there is no such name; key is a list of 1 to 16 names of variables
    "key": ["id", "ttl"],
                  ^' --fault 'dshark: job: key[1]: unknown' "$job"
ends 'a member of an object in a list' 1 'job:5:14: captures.name[1]: twice: it stands earlier in the list; captures.name is an identifier: 1 to 32 letters, digits and _, and no digit first
      {"name": "b", "file": "b.pcap"}
               ^' --fault 'dshark: job: captures.name[1]: twice' "$job"
ends 'a field' 1 'job:7:50: vars.take[0]: field: this is no field; vars.take is a list of 1 to 4 fields, kind[index].name such as ipv4[-1].id
    "vars": [{"name": "id", "take": ["ipv4[0].id", "ipv4[-17].id"]}],
                                                   ^' --fault 'vars.take[0]: field' "$job"
ends 'a place in an expression, after an escape and a tab' 1 "job:8:27: filter[0]: expression 9 syntax: no expression goes on like this; filter is an expression over one packet, as a text of at most 1024 bytes
  	\"filter\": \"id \\u003e 1 &&& 2\",
  	                         ^" --fault 'dshark: job: filter[0]: expression 9 syntax' "$job"
ends 'the end of an expression' 1 "job:8:30: filter[0]: expression 12 syntax: no expression goes on like this; filter is an expression over one packet, as a text of at most 1024 bytes
  	\"filter\": \"id \\u003e 1 &&& 2\",
  	                            ^" --fault 'dshark: job: filter[0]: expression 12 syntax' "$job"
ends 'a member that is missing' 1 'job:1:1: skew[0]: missing: this object lacks it; skew is a number of nanoseconds, at most 3600000000000
  {
  ^' --fault 'dshark: job: skew[0]: missing' "$job"
ends 'a member of another kind' 1 'job:10:13: window[0]: wrong kind: it is of another kind; window is a number of nanoseconds, at most 3600000000000
    "window": 1e6,
              ^' --fault 'dshark: job: window[0]: wrong kind' "$job"
ends 'a member that does not belong to the kind of query' 1 'job:14:5: query[0]: stray: this member does not belong here; query is an object with the member kind, and the members of that kind
      "hop": "ttl"
      ^' --fault 'dshark: job: query[0]: stray' "$job"
ends 'a pattern' 1 'job:13:22: query.allow[1]: unknown: there is no such name; query.allow is a list of 1 to 16 texts, each of 1 to 32 words: captures, ? and *
      "allow": ["a b", "a c"],
                       ^' --fault 'dshark: job: query.allow[1]: unknown' "$job"
sed 's/"b.pcap"/"b.pcap", "skew": 1, "offset": -3600000000001/' "$job" >"$room/clock"
ends 'a member of a later version' 1 'clock:5:37: captures[1]: stray: this member does not belong here; captures is a list of 1 to 64 objects with the members name and file; also offset and skew from version 2 on, and interface from version 3 on
      {"name": "b", "file": "b.pcap", "skew": 1, "offset": -3600000000001}
                                      ^' --fault 'dshark: job: captures[1]: stray' "$room/clock"
sed -i 's/"version": 1/"version": 2/' "$room/clock"
ends 'an offset out of its limits' 1 'clock:5:58: captures.offset[1]: limit 3600000000001: 3600000000001 is out of its limits; captures.offset is a number of nanoseconds from -3600000000000 to 3600000000000
      {"name": "b", "file": "b.pcap", "skew": 1, "offset": -3600000000001}
                                                           ^' --fault 'dshark: job: captures.offset[1]: limit 3600000000001' "$room/clock"
sed '/"hop"/d; s/"a c"\],/"a c"]/' "$job" >"$room/other"
ends 'another job' 1 'explain: other: the job has no query.hop: is it the job that was refused?' \
    --fault 'dshark: job: query.hop[0]: unknown' "$room/other"
ends 'no line of a refused job' 1 'explain: job: this is no line of a refused job: dshark: memory' --fault 'dshark: memory' "$job"
ends 'a missing file' 1 "explain: [Errno 2] No such file or directory: 'missing'" --fault 'key[0]: missing' "$room/missing"
tools/explain >/dev/null 2>&1
[ $? -eq 2 ] && passed=$((passed + 1)) || { failed=$((failed + 1)); echo 'FAILED: no words are not refused with 2'; }

# Each job that is refused has a place, which is found in one run; and so has each text that is no JSON.
python3 - <<'PROGRAM'
import contextlib
import importlib.machinery
import importlib.util
import io
import sys

sys.path.insert(0, "tools")
loader = importlib.machinery.SourceFileLoader("explain", "tools/explain")
explain = importlib.util.module_from_spec(importlib.util.spec_from_loader("explain", loader))
loader.exec_module(explain)
wrong = 0
with open("tests/jobs/refused.txt", encoding="utf-8") as file:
    lines = [line.rstrip("\n").split("\t") for line in file if not line.startswith("#")]
for fault, _, text in lines:
    member = fault.split("[")[0]
    if fault == "whole[0]: not json":
        try:
            explain.read_json(text)
        except explain.NoJson:
            continue
        place = None
    else:
        what, *numbers = fault.split(": ")[1].split()
        what = what if what in ("limit", "expression") else fault.split(": ")[1]
        number = int(numbers[0]) if numbers and numbers[0].isdigit() else 0
        place = explain.place_of(explain.read_json(text), member, int(fault.split("[")[1].split("]")[0]), what, number)
        # What stands there: the member's value, an object that lacks it, or a name or a part of an expression.
        front = text[:place].rstrip()
        if place == 0 or front[-1] in '[:,{"' or what == "expression":
            continue
    wrong += 1
    print(f"FAILED {fault}: place {place} of {text[:200]}")

NO_JSON = {
    "": "1:1: the text ends too early", "{": "1:2: the text ends too early", '{"a" 1}': "1:6: a ':' has to stand here",
    '{"a": 1 "b"}': "1:9: a ',' or '}' has to stand here", "[1 2]": "1:4: a ',' or ']' has to stand here",
    '{\n"a": 01}': "2:7: a ',' or '}' has to stand here", '{"a": 1,}': "1:9: the name of a member has to stand here",
    "[1,]": "1:4: a value has to stand here", '"a': "1:1: the text that begins here has no end",
    '"\\x"': "1:2: no such escape", '"\t"': "1:2: a control character in a text", "{} {}": "1:4: nothing may follow the value",
    '"\\ud800"': "1:2: half of a pair of \\u", '"\\u12"': "1:2: four hexadecimal digits have to follow \\u",
    "[1e400]": "1:2: the number is too large", "[" * 128 + "]" * 128: "1:128: more than 127 levels",
    "[NaN]": "1:2: a value has to stand here", "\ufeff{}": "1:1: a value has to stand here",
}
for text, expected in NO_JSON.items():
    try:
        explain.read_json(text)
        said = "accepted"
    except explain.NoJson as fault:
        line, column, _, _ = explain.shown(text, fault.args[0])
        said = f"{line}:{column}: {fault.args[1]}"
    if said != expected:
        wrong += 1
        print(f"FAILED {text[:40]!r}: {said}, expected {expected}")
for text in ('{"a": [1.5e-3, -0, true, null, "\\ud83d\\ude00 \u00e9"]}', " [ ] ", "[" * 127 + "]" * 127):
    explain.read_json(text)
print(f"jobs: {len(lines) + len(NO_JSON) - wrong} passed, {wrong} failed")
sys.exit(wrong != 0)
PROGRAM
[ $? -eq 0 ] && passed=$((passed + 1)) || failed=$((failed + 1))
printf '{"version": 1, "a\xff": 2}' >"$room/bytes"
ends 'what is no UTF-8' 1 'bytes:1:18: whole[0]: not json: this is no UTF-8
  {"version": 1, "a�
                   ^' --fault 'dshark: job: whole[0]: not json' "$room/bytes"

program=${DSHARK:-crates/dshark_cli/out/dshark_cli}
if [ -x "$program" ]; then
    export DSHARK=$program
    ends 'a job that is accepted' 0 'samples/network/job.json: dshark accepts it' samples/network/job.json
    sed -i '7s/, "ipv4\[-17\].id"//; 8d' "$job"
    ends 'the first fault' 1 'job:13:5: query[0]: stray: this member does not belong here; query is an object with the member kind, and the members of that kind
      "hop": "ttl"
      ^' --fault 'dshark: job: query[0]: stray' "$job"
    sed -i '/"hop"/d; s/"a c"\],/"a c"]/; s/1e6/1, "skew": 0/; s/, "ttl"//' "$job"
    ends 'the fault that dshark finds' 1 'job:12:22: query.allow[1]: unknown: there is no such name; query.allow is a list of 1 to 16 texts, each of 1 to 32 words: captures, ? and *
      "allow": ["a b", "a c"]
                       ^' "$job"
fi

echo "tests/tools/explain.sh: $passed passed, $failed failed"
[ "$failed" -eq 0 ]
