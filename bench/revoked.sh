#!/bin/sh
# A line `revoked LIST SERIAL` with 400,000 entries and a serial that none of them has: the line
# program's time and memory, and the time of `xxd -r -p` over the same digits. Each is processor
# time, the least of five runs. Wants xxd, awk and GNU time.
set -eu
root=$(cd "$(dirname "$0")/.." && pwd)
here=$(mktemp -d)
trap 'rm -rf "$here"' EXIT

echo 'revoked - -' | "$root/rpki" > /dev/null
program=$root/crates/rpki_program/out/rpki_program

# Entries of 20 octets: a serial from 1 to 127, and a time. The serial 0 is sought.
awk 'BEGIN {
    n = 400000
    printf "3083%06X", n * 20
    for (i = 0; i < n; i++) printf "30120201%02X170D3139303530313030303030305A", i % 127 + 1
}' > "$here/digits"
{ printf 'revoked '; cat "$here/digits"; printf ' 00\n'; } > "$here/line"

# Prints the least time, in seconds, and the greatest memory, in KiB, of five runs.
measure() {
    for _ in 1 2 3 4 5; do
        /usr/bin/time -f '%U %S %M' -o "$here/run" "$@"
        cat "$here/run"
    done | awk 'NR == 1 || $1 + $2 < time { time = $1 + $2 } $3 > memory { memory = $3 } END { print time, memory }'
}
ours=$(measure sh -c "exec '$program' < '$here/line' > '$here/answer'")
theirs=$(measure sh -c "exec xxd -r -p '$here/digits' > '$here/octets'")
[ "$(cat "$here/answer")" = no ]

echo "$ours $theirs $(wc -c < "$here/line")" | awk '{
    printf "line: %d octets\nprogram: %s s, %d KiB\nxxd -r -p: %s s\n", $5, $1, $2, $3
    printf "times xxd: %.1f (at most 20)\ntimes the line: %.1f (at most 4)\n", $1 / ($3 > 0 ? $3 : 0.01), $2 * 1024 / $5
}'
