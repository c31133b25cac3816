#!/bin/sh
# Microseconds of the verification of a signature by a key of 2048 bits, the key read each time,
# beside OpenSSL's d2i_RSAPublicKey, SHA256 and RSA_verify, and beside the last two alone, over
# messages of 64, 1,000 and 10,000 octets that OpenSSL signs. Wants cc, and OpenSSL 3 with its
# headers.
set -eu
. "$(dirname "$0")/making.sh"

program signatures
"$here/signatures" 64 1000 10000
