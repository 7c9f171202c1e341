# Sourced by the checks below tests/, with the name of the check and the tools that it needs. It goes to the top of
# the repository, and skips the check with a line and status 0 where a tool or the program is missing. Then
# `program` is the program: $DSHARK where that is set, and else the one that the gate or `make demo` built (nothing is
# built here); and `room` is an empty folder that goes away at the end.
export LC_ALL=C
check=$1
shift
cd "$(dirname "${BASH_SOURCE[0]}")/.." || exit 2
for tool; do
    command -v "$tool" >/dev/null || { echo "$check: skipped: $tool is not installed"; exit 0; }
done
program=${DSHARK:-crates/dshark_cli/out/dshark_cli}
[ -x "$program" ] || { echo "$check: skipped: $program is not built (make demo builds it, or set DSHARK)"; exit 0; }
room=$(mktemp -d) || exit 2
trap 'rm -rf "$room"' EXIT
