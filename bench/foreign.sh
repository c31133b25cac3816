#!/bin/sh
# Microseconds of `rpki_path_validate` beside a CRL of another CA with 100,000 entries, and of decoding
# that CRL, by each of these libraries in turns.
#
#     bench/foreign.sh [LIBRARY..]
#
# A LIBRARY is a folder that `callers/build` made, or callers/out. Wants cc, and OpenSSL 3 with its headers.
set -eu
top=$(cd "$(dirname "$0")/.." && pwd)
here=$(mktemp -d)
trap 'rm -rf "$here"' EXIT
[ $# -gt 0 ] || set -- "$top/callers/out"
count=0
for library; do
    count=$((count + 1))
    cc -O2 -I"$library" -o "$here/foreign$count" "$top/bench/foreign.c" "$library/librpki.a" \
        -Wl,--wrap=malloc,--wrap=realloc,--wrap=free -lcrypto
done
for turn in 1 2 3; do
    count=0
    for library; do
        count=$((count + 1))
        printf '%s, turn %d: ' "$library" "$turn"
        "$here/foreign$count" "$top/examples" 100000
    done
done
