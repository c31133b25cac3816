#!/bin/sh
# Nanoseconds a call of `Cert::decode`, `TbsCert::encode_ref` and `rearrange`, beside OpenSSL's
# d2i_X509 with all extensions, and of `validate_ca_at` with a verifier that says yes, over two
# certificates of CAs that OpenSSL makes, each under an anchor that lists the same: one of usual
# size, and one with 10,000 blocks of addresses and 5,000 of AS numbers. Wants cc, and OpenSSL 3
# with its headers.
set -eu
. "$(dirname "$0")/making.sh"

program certificates
while read -r size addresses numbers; do
    member "$size-anchor" anchor "$addresses" "$numbers"
    member "$size" ca "$addresses" "$numbers" "$size-anchor"
    "$here/certificates" "$here/$size-anchor.cer" "$here/$size.cer"
done <<END
usual 6 3
large 10000 5000
END
