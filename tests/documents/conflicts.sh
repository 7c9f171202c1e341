#!/usr/bin/env bash
# Holds the repository to have no mark of a merge that was left half done: no line of a tracked text file begins with
# seven '<', '=' or '>' and then ends or goes on with a blank. It looks at its own pattern first, on lines that it makes.
#
# It ends with 1 on such a line, and skips with a line, and ends with 0, where this is no checkout of git.
export LC_ALL=C.UTF-8
cd "$(dirname "$0")/../.." || exit 2
git rev-parse --is-inside-work-tree >/dev/null 2>&1 ||
    { echo 'tests/documents/conflicts.sh: skipped: this is no checkout of git'; exit 0; }
marks='^(<{7}|={7}|>{7})( |$)'
passed=0 failed=0

made() { # WANTED TEXT: whether a line with the text, in which each letter stands for seven of its sign, is a mark
    local line=$2 found=no
    line=${line//L/<<<<<<<} line=${line//E/=======} line=${line//G/>>>>>>>}
    ! grep -qE "$marks" <<<"$line" || found=yes
    if [ "$found" = "$1" ]; then
        passed=$((passed + 1))
    else
        failed=$((failed + 1))
        echo "FAILED: '$line' counts as a mark: $found"
    fi
}
made yes 'L ours'
made yes 'E'
made yes 'G theirs'
made no 'E='
made no '  G'
made no 'Lx'

git grep -nIE "$marks"
case $? in
1) passed=$((passed + 1)) ;;
*) failed=$((failed + 1)) && echo 'FAILED: the lines above are marks of a merge, or git failed' ;;
esac

echo "tests/documents/conflicts.sh: $passed passed, $failed failed"
[ "$failed" -eq 0 ]
