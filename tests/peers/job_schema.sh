#!/usr/bin/env bash
# Holds docs/job.schema.json to the jobs: python3-jsonschema accepts each example of docs/JOBS.md, each job under
# samples/ and each one of tests/jobs/accepted.txt, and says of each job of tests/jobs/refused.txt what that file says
# of the schema.
#
# It ends with 1 on a difference. It skips with a line, and ends with 0, where python3-jsonschema is missing.
export LC_ALL=C

cd "$(dirname "$0")/../.." || exit 2
for python in python3 /usr/bin/python3; do
    "$python" -c 'from jsonschema import Draft202012Validator' 2>/dev/null || continue
    exec "$python" - <<'PROGRAM'
import glob
import json
import re
import sys

from jsonschema import Draft202012Validator

with open("docs/job.schema.json", encoding="utf-8") as file:
    schema = json.load(file)
Draft202012Validator.check_schema(schema)
validator = Draft202012Validator(schema)
counts = {True: 0, False: 0}


def says(text, expected):
    accepted = validator.is_valid(json.loads(text))
    counts[accepted == expected] += 1
    if accepted != expected:
        print(f"FAILED: the schema {'accepts' if accepted else 'refuses'} {text[:300]}")


with open("docs/JOBS.md", encoding="utf-8") as file:
    for text in re.findall(r"```json\n(.*?)```", file.read(), re.S):
        says(text, True)
for sample in sorted(glob.glob("samples/**/*.json", recursive=True)):
    with open(sample, encoding="utf-8") as file:
        says(file.read(), True)
with open("tests/jobs/accepted.txt", encoding="utf-8") as file:
    for line in file:
        if not line.startswith("#"):
            says(line, True)
with open("tests/jobs/refused.txt", encoding="utf-8") as file:
    for line in file:
        if not line.startswith("#"):
            _, schema_says, text = line.rstrip("\n").split("\t")
            if schema_says != "no JSON":
                says(text, schema_says == "accepts")
print(f"tests/peers/job_schema.sh: {counts[True]} passed, {counts[False]} failed")
sys.exit(counts[False] != 0)
PROGRAM
done
echo "tests/peers/job_schema.sh: skipped: python3-jsonschema is not installed"
