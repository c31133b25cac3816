#!/bin/sh
# Microseconds of `validate_path` with a verifier that says yes and with real signatures, and octets
# of memory at most, beside OpenSSL's d2i_X509 with all extensions and then
# X509v3_addr_validate_path and X509v3_asid_validate_path, without X509_verify and with it. A path
# is an anchor, authorities and an end entity that OpenSSL makes, each of which lists the same:
# usual ones a few blocks, large ones 10,000 of addresses and 5,000 of AS numbers. Paths of 2, 4, 8
# and 16 members show how both grow. Then `validate_path_with` for the usual path of 4 and lists of
# 0, 1,000 and 100,000 entries, cached and not, beside the path alone. Wants cc, and OpenSSL 3 with
# its headers.
set -eu
. "$(dirname "$0")/making.sh"

# a path of so many members of a size
path() {
    file=$1
    count=$2
    set -- "$here/$file-0.cer"
    for i in $(seq 1 $((count - 2))); do set -- "$@" "$here/$file-$i.cer"; done
    "$here/paths" "$@" "$here/$file-leaf-$count.cer"
}

# makes the members: SIZE ADDRESSES NUMBERS
members() {
    member "$1-0" anchor "$2" "$3"
    for i in $(seq 1 14); do member "$1-$i" ca "$2" "$3" "$1-$((i - 1))"; done
    for i in 2 4 8 16; do member "$1-leaf-$i" ee "$2" "$3" "$1-$((i - 2))"; done
}

program paths
members usual 6 3
members large 10000 5000
for size in usual large; do
    echo "$size"
    for count in 2 4 8 16; do path "$size" "$count"; done
done

program revocations
for entries in 0 1000 100000; do
    "$here/revocations" "$entries" "$here/usual-0" "$here/usual-1" "$here/usual-2" "$here/usual-leaf-4"
done
