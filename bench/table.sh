# Sourced by the benches of whole commands, after they have read their words, with the words that are left: it finds the
# program, makes a temporary folder, and times rows of commands.
name=$(basename "$0")
program=$(realpath "${1:-$here/../crates/dshark_cli/out/dshark_cli}")
[ -x "$program" ] || { echo "bench/$name: $program is not built: make demo builds it" >&2; exit 1; }
command -v gcc >/dev/null && [ -x /usr/bin/time ] || { echo "bench/$name: needs gcc and /usr/bin/time" >&2; exit 1; }
room=$(mktemp -d)
trap 'rm -rf "$room"' EXIT

names=() commands=()
row() { # NAME TOOL COMMAND..
    local name=$1 tool=$2
    shift 2
    if command -v "$tool" >/dev/null; then
        names+=("$name")
        commands+=("$*")
    else
        echo "$name: skipped: $tool is not installed"
    fi
}

# Times all rows: the least cpu seconds, elapsed seconds and greatest kilobytes of each, over so many records in so many
# bytes; those of tshark over fewer records. The last lines of the first row's output, which is run once more for them,
# say what was read.
table() { # RECORDS FEW_RECORDS BYTES LINES
    local round i words
    : >"$room/rows"
    read -ra words <<<"${commands[0]}"
    "${words[@]}" 2>"$room/err" | tail -n "$4" >"$room/report"
    for ((round = 0; round < rounds; round++)); do
        for i in "${!names[@]}"; do
            read -ra words <<<"${commands[$i]}"
            /usr/bin/time -o "$room/time" -f '%U %S %e %M' "${words[@]}" >/dev/null 2>"$room/err" ||
                { echo "bench/$name: ${names[$i]} fails: $(head -3 "$room/err")" >&2; exit 1; }
            echo "$i $(tail -1 "$room/time")" >>"$room/rows"
        done
    done
    echo "records=$1 bytes=$3 rounds=$rounds"
    cat "$room/report"
    sort -n "$room/rows" | awk -v records="$1" -v few="$2" -v bytes="$3" -v all="$(printf '%s\t' "${names[@]}")" '
        { cpu = $2 + $3
          if (!($1 in least) || cpu < least[$1]) { least[$1] = cpu; user[$1] = $2; system_[$1] = $3 }
          if (!($1 in wall) || $4 < wall[$1]) wall[$1] = $4
          if ($5 > peak[$1]) peak[$1] = $5 }
        END {
          n = split(all, name, "\t") - 1
          printf "%-18s %10s %8s %8s %8s %8s %10s %12s", "row", "records", "user s", "sys s", "wall s", "MB/s", "peak MB", "ns a record"
          for (own = 0; own < n && name[own + 1] ~ /^dshark/; own++) printf "  cpu to %s", name[own + 1]
          printf "\n"
          for (i = 0; i < n; i++) {
            of = name[i + 1] ~ /^tshark/ ? few : records
            each = least[i] / of
            printf "%-18s %10d %8.2f %8.2f %8.2f %8.0f %10.1f %12.0f", name[i + 1], of, user[i], system_[i], wall[i], (each > 0 ? bytes / records / each / 1e6 : 0), peak[i] / 1024, 1e9 * each
            for (k = 0; k < own; k++) printf "  %*.2f", 7 + length(name[k + 1]), (least[k] > 0 ? each * records / least[k] : 0)
            printf "\n"
          }
          printf "memory of dshark beside the size of the files: %.2f; bytes a record: %.0f\n", peak[0] * 1024 / bytes, peak[0] * 1024 / records
        }'
}
