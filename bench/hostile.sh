#!/bin/sh
# Time and memory of `Cert::decode` over hostile certificates, 40 sorts that hostile.py makes in
# growing sizes, beside OpenSSL's d2i_X509, which looks into no extension. Ends with the most memory
# that was held, as a multiple of the input. Wants cc, OpenSSL 3 with its headers, and python3.
set -eu
. "$(dirname "$0")/making.sh"

program hostile
mkdir "$here/sorts"
python3 "$root/bench/hostile.py" "$here/sorts" --sizes 4
while read -r place name; do
    echo "$name"
    for file in "$here/sorts/$place"-*.cer; do "$here/hostile" "$file"; done
done < "$here/sorts/sorts" | tee "$here/said"
sed -n 's/.*memory *\([0-9.]*\) times.*/\1/p' "$here/said" | sort -n | tail -n 1 | sed 's/.*/at most & times the input/'
