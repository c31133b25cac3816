#!/bin/sh
# What a CA that works against others costs `rpki tree`: processor time and memory over 5,000
# certificates below one CA, without and with 2,000 certificates by which another CA certifies the key
# of the trust anchor, of that CA, or its own under other names, or 200 of these beside 200 CRLs that it
# didn't sign; with a CA below it that holds 100,000 addresses, and 700 certificates that inherit them; and
# with 46 by which the paths below it double until the steps are used up, which takes minutes and is run
# once (strangers.py makes them). The lines of the 5,000 have to be the same. PROGRAM is the built command
# (crates/rpki_command/out/rpki_command, say).
#
#     bench/strangers.sh PROGRAM [FOLDER]
#
# FOLDER keeps the files for another run.
set -eu
root=$(cd "$(dirname "$0")/.." && pwd)
program=$(realpath "$1")
here=$(mktemp -d)
trap 'rm -rf "$here"' EXIT
kept=${2-$here}
[ -d "$kept/limits" ] || python3 "$root/bench/strangers.py" 5000 2000 "$kept"
cd "$kept"

# seconds of processor time and KiB of memory of a walk, whose lines of the 5,000 it keeps
used() { # NAME DIRECTORY..
    name=$1
    shift
    python3 - "$here/$name" "$program" tree --tal honest/ta.tal --at 2026-06-01 "$@" <<'END'
import resource, subprocess, sys
said = subprocess.run(sys.argv[2:], stdout=subprocess.PIPE).stdout.splitlines()
with open(sys.argv[1], 'wb') as file:
    file.write(b'\n'.join(sorted(it for it in said if b': honest/ee' in it)))
used = resource.getrusage(resource.RUSAGE_CHILDREN)
print(f'{used.ru_utime + used.ru_stime:.3f} {used.ru_maxrss}')
END
}

for name in honest anchors siblings names crls inherit limits; do
    runs='1 2 3'
    [ "$name" != limits ] || runs=1
    for _ in $runs; do
        if [ "$name" = honest ]; then used honest honest; else used "$name" "$name" honest; fi
    done | sort -n | head -n 1 | sed "s/\(.*\) \(.*\)/$name  \1 s, \2 KiB/"
    cmp -s "$here/honest" "$here/$name" || echo "$name: the lines of the 5,000 are others"
done
grep -c . "$here/honest"
