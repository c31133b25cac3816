# For the other scripts: certificates by OpenSSL, and a program of C over the static library. All is
# made in the folder $here, which goes at the end. Wants cc, and OpenSSL 3 with its headers.
root=$(cd "$(dirname "$0")/.." && pwd)
here=$(mktemp -d)
trap 'rm -rf "$here"' EXIT

# the configuration of a certificate of this kind (anchor, ca or ee), this name and this issuer, but
# for its resources
configuration() {
    manifest='1.3.6.1.5.5.7.48.10;URI = rsync://rpki.example.net/repository/member/B1b2C3d4E5f6G7h8I9j0/0/manifest.mft'
    cat <<END
[req]
distinguished_name = name
prompt = no
string_mask = nombstr
x509_extensions = extensions
[name]
CN = $2
[policy]
policyIdentifier = 1.3.6.1.5.5.7.14.2
CPS = https://www.example.net/cps.html
[extensions]
subjectKeyIdentifier = hash
subjectInfoAccess = @access
certificatePolicies = critical, @policy
sbgp-ipAddrBlock = critical, @addresses
sbgp-autonomousSysNum = critical, @numbers
END
    [ "$1" = anchor ] || cat <<END
authorityKeyIdentifier = keyid:always
crlDistributionPoints = URI:rsync://rpki.example.net/repository/$3/A1b2C3d4E5f6G7h8I9j0/A1b2C3d4E5f6G7h8I9j0.crl
authorityInfoAccess = caIssuers;URI:rsync://rpki.example.net/repository/anchor/A1b2C3d4E5f6G7h8I9j0.cer
END
    if [ "$1" = ee ]; then
        cat <<END
keyUsage = critical, digitalSignature
[access]
1.3.6.1.5.5.7.48.11;URI = rsync://rpki.example.net/repository/member/B1b2C3d4E5f6G7h8I9j0/0/object.roa
END
    else
        cat <<END
basicConstraints = critical, CA:TRUE
keyUsage = critical, keyCertSign, cRLSign
[access]
1.3.6.1.5.5.7.48.5;URI = rsync://rpki.example.net/repository/member/B1b2C3d4E5f6G7h8I9j0/0/
$manifest
1.3.6.1.5.5.7.48.13;URI = https://rrdp.example.net/notification.xml
END
    fi
}

# the resources of a certificate: so many blocks of IPv4 and of AS numbers, and one of IPv6
resources() {
    echo '[addresses]'
    awk -v count="$1" 'BEGIN { for (i = 0; i < count; i++) printf "IPv4.%d = %d.%d.%d.0/24\n", i, 10 + int(i / 16384), int(i / 64) % 256, i * 4 % 256 }'
    echo 'IPv6.0 = 2001:db8::/32'
    echo '[numbers]'
    awk -v count="$2" 'BEGIN { for (i = 0; i < count; i++) printf "AS.%d = %d-%d\n", i, 64496 + 10 * i, 64496 + 10 * i + i % 3 }'
}

# makes the certificate NAME.cer of the configuration NAME.cnf, with the options that say who signs
# it
certificate() {
    file=$1
    shift
    openssl req -x509 -new -newkey rsa:2048 -nodes -sha256 -days 3650 -set_serial 0x1B2C3D4E5F60718293A4B5C6D7E8F901 \
        -config "$here/$file.cnf" -keyout "$here/$file.key" -out "$here/$file.pem" "$@" 2> "$here/log" || { cat "$here/log"; exit 1; }
    openssl x509 -in "$here/$file.pem" -outform DER -out "$here/$file.cer"
}

# makes a certificate: NAME KIND ADDRESSES NUMBERS [ISSUER]
member() {
    { configuration "$2" "$(printf %s "$1" | openssl sha1 -r | cut -c 1-40)" "${5-}"; resources "$3" "$4"; } > "$here/$1.cnf"
    if [ $# -eq 5 ]; then certificate "$1" -CA "$here/$5.pem" -CAkey "$here/$5.key"; else certificate "$1"; fi
}

# makes a program of bench/NAME.c and the static library
program() {
    (cd "$root/crates/rpki_bench" && rt lib) > "$here/log" 2>&1 || { cat "$here/log"; exit 1; }
    # how the kit's memory is the C library's
    heap=$(dirname "$(rt doc)")/c/liblibc_c.a
    cc -O2 -o "$here/$1" "$root/bench/$1.c" "$root/crates/rpki_bench/out/librpki_bench.a" "$heap" \
        -Wl,--wrap=malloc,--wrap=realloc,--wrap=free -lcrypto -lm
}
