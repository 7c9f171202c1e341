#!/usr/bin/env bash
# Compares the commands and options of the manual page docs/dshark.1 with those that `dshark --help` prints, and has
# man(1) read the page where it is installed.
#
# The program is $DSHARK where that is set, and else the one that the gate or `make demo` built; nothing is built
# here. It ends with 1 on a difference, and skips with a line, and ends with 0, where the program is missing.
. "$(dirname "$0")/../begin.sh" tests/peers/manual.sh || exit 2
failed=0

# The commands, as words after the program's name, and the options.
of_help() {
    "$program" --help | grep -oE '^ *dshark [a-z-]+' | awk '{ print "command", $2 }'
    "$program" --help | grep -oE '^ +--[a-z]+ +[A-Z]+ ' | awk '{ print "option", $1 }'
}
of_manual() {
    awk '/^\.SH COMMANDS/ { part = "command" } /^\.SH OPTIONS/ { part = "option" } /^\.SH WORDS/ { part = "" }
        part != "" && tag { print part, $2 }
        { tag = ($1 == ".TP") }' docs/dshark.1 | sed 's/\\-/-/g'
}
[ -n "$(of_help)" ] || { echo 'FAILED: --help names no command'; failed=1; }
if ! difference=$(diff <(of_help | sort -u) <(of_manual | sort -u)); then
    echo "FAILED: --help (<) and docs/dshark.1 (>) differ"
    echo "$difference"
    failed=1
fi
if command -v man >/dev/null; then
    complaints=$(man --warnings -l docs/dshark.1 2>&1 >/dev/null)
    [ -z "$complaints" ] || { echo "FAILED: man: $complaints"; failed=1; }
fi
[ "$failed" -ne 0 ] || echo 'tests/peers/manual.sh: the manual page has the commands and options of --help'
exit "$failed"
