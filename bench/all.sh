#!/bin/sh
# Runs every measurement, one after the other, each under its name. Takes some ten minutes once the
# libraries are proved. Says which it left out.
cd "$(dirname "$0")" || exit 1
for name in table certificates lists paths signatures callers foreign hostile chains revoked; do
    echo "== $name"
    if { [ "$name" = table ] || [ "$name" = hostile ]; } && ! command -v python3 > /dev/null; then
        echo "left out: no python3"
    else
        "./$name.sh" || echo "left out: $name.sh ended with status $?"
    fi
done
