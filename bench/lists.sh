#!/bin/sh
# Nanoseconds of `Crl::decode`, of an uncached look-up of a serial that isn't there, of caching and
# the first look-up, and of a further one, and octets of memory at most, beside OpenSSL's
# d2i_X509_CRL and X509_CRL_get0_by_serial, over lists of 0, 1,000 and 100,000 shuffled entries that
# OpenSSL makes. Wants cc, and OpenSSL 3 with its headers.
set -eu
. "$(dirname "$0")/making.sh"

program lists
for entries in 0 1000 100000; do "$here/lists" "$entries"; done
