#!/bin/sh
# Processor time and memory of `rpki tree` over repositories of 1,000 and 20,000 certificates, as
# fan-out and as depth (tree.py makes them, which takes minutes), beside `openssl verify` of the same
# certificates with the same lists, by turns in one run: the least of three. Wants the OpenSSL
# command. PROGRAM is the built command (crates/rpki_command/out/rpki_command, say).
#
#     bench/tree.sh PROGRAM [FOLDER]
#
# FOLDER keeps the repositories for another run.
set -eu
root=$(cd "$(dirname "$0")/.." && pwd)
program=$(realpath "$1")
here=$(mktemp -d)
trap 'rm -rf "$here"' EXIT
kept=${2-$here}
at=2026-06-01

# what OpenSSL wants: certificates of CAs and lists in one file each
joined() {
    openssl x509 -in anchor.cer -out anchor.pem
    for file in ca*.cer; do openssl x509 -in "$file"; done > cas.pem
    for file in *.crl; do openssl crl -in "$file"; done > lists.pem
}

# of a command whose answer is 0: seconds of processor time and KiB of memory
used() {
    python3 - "$@" <<'END'
import resource, subprocess, sys
subprocess.run(sys.argv[1:], check=True, stdout=subprocess.DEVNULL)
used = resource.getrusage(resource.RUSAGE_CHILDREN)
print(f'{used.ru_utime + used.ru_stime:.3f} {used.ru_maxrss}')
END
}

# the least time, and its memory
least() { sort -n "$1" | head -n 1; }

for shape in wide deep; do
    for count in 1000 20000; do
        folder=$kept/$shape$count
        [ -f "$folder/anchor.tal" ] || python3 "$root/bench/tree.py" "$shape" "$count" "$folder"
        cd "$folder"
        [ -f lists.pem ] || joined
        size=$(cat ./*.cer ./*.crl | wc -c)
        rm -f "$here/ours" "$here/theirs"
        for _ in 1 2 3; do
            # (a system's arguments end at some two million octets, which these names don't reach)
            used "$program" tree --tal anchor.tal --at "$at" ./*.cer ./*.crl >> "$here/ours"
            used openssl verify -attime "$(date -u -d "$at" +%s)" -CAfile anchor.pem -untrusted cas.pem \
                -CRLfile lists.pem -crl_check_all ee*.cer >> "$here/theirs"
        done
        echo "$shape, $count certificates, $((size / 1024)) KiB of files"
        echo "  rpki tree       $(least "$here/ours" | sed 's/ / s, /') KiB"
        echo "  openssl verify  $(least "$here/theirs" | sed 's/ / s, /') KiB"
    done
done
