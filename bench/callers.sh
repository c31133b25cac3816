#!/bin/sh
# Microseconds of calls through include/rpki.h beside the library's own calls:
# `rpki_certificate_read` of a usual authority beside `Cert::decode`, and `rpki_path_validate` of a path
# of four beside `validate_path`; and the octets of librpki.a. Wants cc, ar, and OpenSSL 3 with its
# headers.
set -eu
. "$(dirname "$0")/making.sh"

(cd "$root/crates/rpki_c" && rt lib) > "$here/log" 2>&1 || { cat "$here/log"; exit 1; }
"$root/callers/build" "$here/library" 2> /dev/null
(cd "$root/crates/rpki_bench" && rt lib) > "$here/log" 2>&1 || { cat "$here/log"; exit 1; }
heap=$(dirname "$(rt doc)")/c/liblibc_c.a
cc -O2 -I"$root/include" -o "$here/callers" "$root/bench/callers.c" "$root/crates/rpki_bench/out/librpki_bench.a" "$heap" \
    -Wl,--wrap=malloc,--wrap=realloc,--wrap=free -L"$here/library" -lrpki -Wl,-rpath,"$here/library" -lcrypto
member usual-0 anchor 6 3
member usual-1 ca 6 3 usual-0
member usual-2 ca 6 3 usual-1
member usual-leaf ee 6 3 usual-2
"$here/callers" "$here/usual-0.cer" "$here/usual-1.cer" "$here/usual-2.cer" "$here/usual-leaf.cer"
echo "librpki.a: $(wc -c < "$here/library/librpki.a") octets"
