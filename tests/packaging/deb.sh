#!/usr/bin/env bash
# Has `make deb` build a package in an empty folder, lists its files, and compares them with those that `make install`
# puts below a folder; and looks at the fields of the package. A program of two lines stands for the built one, so that
# nothing has to be built.
#
# It ends with 1 on a difference, and skips with a line, and ends with 0, where make, dpkg or dpkg-deb is missing.
export LC_ALL=C
cd "$(dirname "$0")/../.." || exit 2
for tool in make install dpkg dpkg-deb; do
    command -v "$tool" >/dev/null || { echo "tests/packaging/deb.sh: skipped: $tool is not installed"; exit 0; }
done
room=$(mktemp -d) || exit 2
trap 'rm -rf "$room"' EXIT
passed=0
failed=0

is() { # WHAT EXPECTED GOT
    if [ "$2" = "$3" ]; then
        passed=$((passed + 1))
    else
        failed=$((failed + 1))
        echo "FAILED $1: expected <, was >"
        diff <(echo "$2") <(echo "$3") | head -20
    fi
}

printf '#!/bin/sh\n# names GLIBC_2.4, GLIBC_2.17 and GLIBC_2.9\necho dshark 0.1.0\n' >"$room/program"
chmod 755 "$room/program"
umask 077
make -s deb BUILD="$room/build" PROGRAM="$room/program" >"$room/said" 2>&1
is 'make deb' "0 dpkg-deb: building package 'dshark'" "$? $(sed 's/ in .*//' "$room/said")"
package=$room/build/dshark_0.1.0_$(dpkg --print-architecture).deb
make -s install DESTDIR="$room/root" PREFIX=/usr PROGRAM="$room/program"

# The same files, but that the manual page is packed, zsh's completion has Debian's folder, and the licence a second name.
expected() {
    (cd "$room/root" && find . -type f) | sed 's|man1/dshark.1$|&.gz|; s|zsh/site-functions|zsh/vendor-completions|'
    echo ./usr/share/doc/dshark/copyright
}
is 'its files' "$(expected | sort)" "$(dpkg-deb -c "$package" | awk '$1 !~ /^d/ { print $6 }' | sort)"
is 'its owner' 'root/root' "$(dpkg-deb -c "$package" | awk '{ print $2 }' | sort -u)"
is 'its folders' 'drwxr-xr-x' "$(dpkg-deb -c "$package" | awk '$1 ~ /^d/ { print $1 }' | sort -u)"
is 'its programs' './usr/bin/dshark' "$(dpkg-deb -c "$package" | awk '$1 == "-rwxr-xr-x" { print $6 }' | grep bin/)"
is 'its fields' "dshark 0.1.0 libc6 (>= 2.17)" \
    "$(dpkg-deb -W --showformat='${Package} ${Version} ${Depends}' "$package")"
dpkg-deb -x "$package" "$room/unpacked"
is 'its program' 'dshark 0.1.0' "$("$room/unpacked/usr/bin/dshark")"
is 'a tool' 'all groups=7 summaries=28' \
    "$(cd "$room/unpacked/usr/share/dshark" && tools/plot-report --summary samples/network/job.report 2>&1 | tail -1)"

echo "tests/packaging/deb.sh: $passed passed, $failed failed"
[ "$failed" -eq 0 ]
