#!/bin/sh
# A million serial numbers, half of them revoked, asked of a CRL of 100,000 entries through each caller:
# the processor time, in seconds, with what is made of the CRL first.
#
#     bench/serials.sh [LIBRARY]
#
# LIBRARY is a folder that `callers/build` made, or callers/out. Wants cc, python3 and cargo. Wanted are at
# most 0.1 s in C, 2 s in Python and 0.2 s in Rust.
set -eu
top=$(cd "$(dirname "$0")/.." && pwd)
RPKI_LIBRARY=$(cd "${1:-$top/callers/out}" && pwd)
here=$(mktemp -d)
trap 'rm -rf "$here"' EXIT
export RPKI_LIBRARY PYTHONPATH="$top/callers/python" PYTHONDONTWRITEBYTECODE=1
export LD_LIBRARY_PATH="$RPKI_LIBRARY" CARGO_TARGET_DIR="${CARGO_TARGET_DIR:-$here/target}" CARGO_NET_OFFLINE=true

python3 "$top/bench/serials.py" make "$here/list.crl"
python3 "$top/bench/serials.py" ask "$here/list.crl"
cc -O2 -I"$RPKI_LIBRARY" -o "$here/serials" "$top/bench/serials.c" "$RPKI_LIBRARY/librpki.a"
"$here/serials" "$here/list.crl"
mkdir -p "$here/rust/src"
cp "$top/bench/serials.rs" "$here/rust/src/main.rs"
printf '[package]\nname = "serials"\nversion = "0.1.0"\nedition = "2021"\n[dependencies]\n' > "$here/rust/Cargo.toml"
printf 'gonxebhula = { path = "%s" }\n' "$top/callers/rust" >> "$here/rust/Cargo.toml"
(cd "$here/rust" && cargo build --quiet --release)
"$CARGO_TARGET_DIR/release/serials" "$here/list.crl"
