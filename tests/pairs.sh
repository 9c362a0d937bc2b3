#!/bin/bash
# Runs the program `pairs` on each file tests/pairs/NAME.in and compares what it prints, byte by byte, with
# tests/pairs/NAME.out. The expected listings are those of an independent model. Needs `target/bin/pairs`, which
# `tools/program pairs` builds.
set -uo pipefail
cd "$(dirname "$0")/.."
program=target/bin/pairs
passed=0 failed=0
for in in tests/pairs/*.in; do
    # the x keeps the last line feeds, which $( ) would drop
    got=$("$program" <"$in" && printf x) || got=
    IFS= read -r -d '' want <"${in%.in}.out"
    if [ "$got" = "${want}x" ]; then
        passed=$((passed + 1))
    else
        failed=$((failed + 1))
        echo "pairs: $in: not as expected"
    fi
done
echo "pairs: $passed files as expected, $failed not"
[ "$failed" = 0 ] && [ "$passed" -gt 0 ]
