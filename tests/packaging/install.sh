#!/usr/bin/env bash
# Has `make install` put everything below an empty folder, lists it, and has `make uninstall` take it away again.
# A program of one line stands for the built one, so that nothing has to be built.
#
# It ends with 1 on a difference, and skips with a line, and ends with 0, where make or install is missing.
export LC_ALL=C
cd "$(dirname "$0")/../.." || exit 2
for tool in make install; do
    command -v "$tool" >/dev/null || { echo "tests/packaging/install.sh: skipped: $tool is not installed"; exit 0; }
done
room=$(mktemp -d) || exit 2
trap 'rm -rf "$room"' EXIT
passed=0
failed=0

is() { # WHAT EXPECTED GOT
    if [ "$2" = "$3" ]; then
        passed=$((passed + 1))
    else
        failed=$((failed + 1))
        echo "FAILED $1: expected <, was >"
        diff <(echo "$2") <(echo "$3") | head -20
    fi
}

printf '#!/bin/sh\necho dshark\n' >"$room/program"
chmod 755 "$room/program"
words=(-s DESTDIR="$room/root" PREFIX=/opt/a PROGRAM="$room/program")
make "${words[@]}" install 2>"$room/complaints"
is 'make install' "0 $(:)" "$? $(cat "$room/complaints")"

# What has to be there, made anew from what the repository has.
expected() {
    echo bin/dshark
    echo share/man/man1/dshark.1
    echo share/bash-completion/completions/dshark
    echo share/zsh/site-functions/_dshark
    echo share/fish/vendor_completions.d/dshark.fish
    echo share/dshark/job.schema.json
    printf 'share/doc/dshark/%s\n' README.md CHANGELOG.md CONTRIBUTING.md SECURITY.md LICENSE docs/*.md
    find samples -type f ! -name '*.pyc' | sed 's|^|share/dshark/|'
    find tools -maxdepth 1 -type f ! -name believed ! -name make-completions ! -name '*.pyc' | sed 's|^|share/dshark/|'
}
is 'what is installed' "$(expected | sort)" "$(cd "$room/root/opt/a" && find . -type f | sed 's|^\./||' | sort)"
is 'the program' dshark "$("$room/root/opt/a/bin/dshark")"
is 'a tool' 'all groups=7 summaries=28' \
    "$(cd "$room/root/opt/a/share/dshark" && tools/plot-report --summary samples/network/job.report 2>&1 | tail -1)"

# A link from one document to another has to lead there after they are installed too.
broken=$(cd "$room/root/opt/a/share/doc/dshark" && grep -oE '\]\([A-Za-z/_]+\.md\)' README.md | tr -d '()]' | sort -u |
    while read -r link; do [ -e "$link" ] || echo "$link"; done)
is 'links of the README' '' "$broken"

make "${words[@]}" uninstall >/dev/null 2>"$room/complaints"
is 'make uninstall' '0 ' "$? $(cat "$room/complaints")"
is 'what is left' '' "$(find "$room/root" -type f)"
make -s DESTDIR="$room/root" PROGRAM="$room/no" install >"$room/complaints" 2>&1
is 'nothing to install' 'make install: run make demo first, which builds the program' "$(head -1 "$room/complaints")"

echo "tests/packaging/install.sh: $passed passed, $failed failed"
[ "$failed" -eq 0 ]
