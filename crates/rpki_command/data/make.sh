#!/bin/sh
# Makes certificates and revocation lists like those of this folder, with new keys of OpenSSL's, by
# `rpki prepare` and `rpki complete`:
#   anchor.cer          a trust anchor that lists 10.0.0.0/8, 2001:db8::/32 and AS 64496 to 64511
#   anchor.tal          its locator (RFC 8630)
#   first.cer           a CA below it that lists a part of that; first.crl, the anchor's list
#   second.cer          a CA below first.cer that inherits; second.crl, the list of first.cer
#   object.cer          an end entity below second.cer; object.crl, the list of second.cer
#   revoked.crl         the next list of first.cer, which revokes second.cer
#   tampered.cer        second.cer with one bit of its serial number changed
#
#     make.sh FOLDER
#
# The command is that of the variable RPKI, or the script ../../../rpki. The keys stay in a temporary
# folder and are lost. Moments are fixed: 2026-01-01 to 2036-01-01.
# shellcheck disable=SC2046 # what functions print are several words
set -eu
[ $# -eq 1 ] || {
    echo 'usage: make.sh FOLDER' >&2
    exit 2
}
top=$(cd "$(dirname "$(readlink -f "$0")")/../../.." && pwd)
rpki=${RPKI:-$top/rpki}
there=$(cd "$1" && pwd)
work=$(mktemp -d)
trap 'rm -rf "$work"' EXIT
cd "$there"

begin=2026-01-01
end=2036-01-01
site=rsync://rpki.example.net/repo

for name in anchor first second object; do
    openssl genrsa -out "$work/$name.key" 2048 2> /dev/null
    openssl pkey -in "$work/$name.key" -pubout -out "$work/$name.pub"
done

# Has a key sign what was prepared, and completes it at a moment below the files
finish() { # FILE SIGNER MOMENT [--issuer FILE]..
    file=$1 signer=$2 at=$3
    shift 3
    openssl dgst -sha256 -sign "$work/$signer.key" -out "$work/sig" "$work/tbs"
    "$rpki" complete --at "$at" "$@" --out "$file" --force "$work/tbs" "$work/sig"
}

# Makes a certificate, of the subject's name and number, below the files of the signer
certificate() { # NAME KIND SERIAL SIGNER OPTION..
    name=$1 kind=$2 serial=$3 signer=$4
    shift 4
    "$rpki" prepare "$kind" --key "$work/$name.pub" --serial "$serial" --from $begin --until $end \
        --at $begin $(above "$signer") "$@" --out "$work/tbs" --force
    finish "$name.cer" "${signer:-$name}" $begin $(above "$signer")
}

# Makes a list of an issuer
list() { # FILE ISSUER MOMENT OPTION..
    file=$1 issuer=$2 at=$3
    shift 3
    "$rpki" prepare list --at "$at" --next-update $end $(above "$issuer") "$@" --out "$work/tbs" \
        --force
    finish "$file" "$issuer" "$at" $(above "$issuer")
}

# The path down to an issuer
above() { # ISSUER
    case $1 in
        anchor) echo --issuer anchor.cer ;;
        first) echo --issuer anchor.cer --issuer first.cer ;;
        second) echo --issuer anchor.cer --issuer first.cer --issuer second.cer ;;
    esac
}

# Where a CA publishes, and where its issuer's certificate and list are
places() { # NAME
    echo --repository "$site/$1/" --manifest "$site/$1/$1.mft" \
        --notify https://rpki.example.net/notification.xml
}
issuer_places() { # ISSUER
    echo --issuer-uri "$site/$1.cer" --crl-uri "$site/$1/$1.crl"
}

certificate anchor anchor 01 '' $(places anchor) --ipv4 10.0.0.0/8 --ipv6 2001:db8::/32 \
    --as 64496-64511
certificate first ca 02 anchor $(places first) $(issuer_places anchor) --ipv4 10.0.0.0/12 \
    --ipv4 10.32.0.0-10.40.255.255 --ipv6 2001:db8::/40 --as 64500-64503 --as 64510
certificate second ca 03 first $(places second) $(issuer_places first) --ipv4 inherit \
    --ipv6 inherit --as inherit
certificate object ee 04 second $(issuer_places second) --ipv4 10.1.2.0/24 \
    --object "$site/second/object.roa"
{
    printf '# The trust anchor of these examples\n%s\n%s\n\n' \
        https://rpki.example.net/repo/anchor.cer "$site/anchor.cer"
    sed '/^-/d' "$work/anchor.pub"
} > anchor.tal
list first.crl anchor $begin
list second.crl first $begin
list object.crl second $begin
list revoked.crl first 2026-02-01 --previous second.crl --revoke second.cer
python3 - << 'END'
octets = bytearray(open("second.cer", "rb").read())
place = octets.index(bytes.fromhex("a003020102020103")) + 7
octets[place] ^= 1
open("tampered.cer", "wb").write(octets)
END
