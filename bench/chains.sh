#!/bin/sh
# How the time of a call on sets of addresses grows with the number of blocks: nanoseconds a call at
# 1,000, 10,000 and 100,000 blocks, the least of 40 calls, and the ratio of each to the one before.
# `from_iter` is to grow like n log n (11 to 14 times), `build` (a builder that is filled block by
# block and finalized) too, with some more for its growing vector, `contains` like log n (up to 2
# times, as far as the caches reach), the others like n (10 times).
set -eu
root=$(cd "$(dirname "$0")/.." && pwd)
here=$(mktemp -d)
trap 'rm -rf "$here"' EXIT

mkdir -p "$here/crates/chains/src"
cp -r "$root/crates/rpki_der" "$root/crates/rpki_blocks" "$here/crates/"
# The program isn't named as a source here, since the gate reads all sources as parts of crates.
cp "$root/bench/chains.program" "$here/crates/chains/src/main.rt"
grep -E '^(rpki_der|rpki_blocks):' "$root/crates.txt" > "$here/crates.txt"
echo 'chains: rpki_blocks anyhow' >> "$here/crates.txt"
cd "$here/crates/chains"
rt run 2> "$here/log" > "$here/all" || { cat "$here/all" "$here/log"; exit 1; }

grep -E '^[0-9]+( [0-9]+){6}$' "$here/all" | awk '
    BEGIN { split("from_iter build contains is_encompassed intersection verify_issued", name) }
    { for (i = 1; i <= 6; i++) time[i, NR] = $(i + 1) }
    END {
        for (i = 1; i <= 6; i++)
            printf "%s: %d, %d, %d ns; %.1f times, %.1f times\n", name[i], time[i, 1], time[i, 2], time[i, 3], time[i, 2] / time[i, 1], time[i, 3] / time[i, 2]
    }'
