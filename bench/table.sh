#!/bin/sh
# Prints the table of README.md as this machine gives it, and draws ratios.svg: each operation
# beside OpenSSL in the same run, by turns, without signatures. A usual certificate lists 33 blocks,
# a large one 10,000 of addresses and 5,000 of AS numbers. Wants cc, OpenSSL 3 with its headers, and
# python3.
#
#     bench/table.sh [LINES]
#
# With a file LINES, what an earlier run measured, it measures nothing.
set -eu
. "$(dirname "$0")/making.sh"

# makes the members of a path of four: SIZE ADDRESSES NUMBERS
members() {
    member "$1-0" anchor "$2" "$3"
    member "$1-1" ca "$2" "$3" "$1-0"
    member "$1-2" ca "$2" "$3" "$1-1"
    member "$1-leaf" ee "$2" "$3" "$1-2"
}

if [ $# -eq 1 ]; then
    cp "$1" "$here/lines"
else
    program table
    members usual 20 12
    members large 10000 5000
    "$here/table" "$here" > "$here/lines"
fi
cat "$here/lines" >&2
python3 "$root/bench/table.py" "$root/bench/ratios.svg" < "$here/lines"
