#!/bin/sh
# Times the program `large` against the same sum in plain C, in one run, and prints the ratio.
# Before it, in crates/large: rt run
set -eu
cd "$(dirname "$0")/.."

rounds=9
proved=crates/large/out/large
plain=crates/large/out/plain

if [ ! -x "$proved" ]; then
    echo "no $proved: run 'rt run' in crates/large first" >&2
    exit 2
fi
"${CC:-clang}" -O3 -std=c11 -Wall -Wextra -o "$plain" bench/perm.c

if [ "$("$proved")" != "$("$plain")" ]; then
    echo "the two permanents differ" >&2
    exit 1
fi

# The seconds of user time that one run of a program takes: the second line of `times` has those of the children.
seconds() {
    (
        "$1" > /dev/null
        times
    ) | awk 'NR == 2 { split($1, t, /[ms]/); print t[1] * 60 + t[2] }'
}

# The two take turns, and the least time of each counts: other work on the machine only adds.
"$proved"
i=0
while [ "$i" -lt "$rounds" ]; do
    echo "$(seconds "$proved") $(seconds "$plain")"
    i=$((i + 1))
done | awk '
    NR == 1 || $1 < a { a = $1 }
    NR == 1 || $2 < b { b = $2 }
    END {
        printf "proved: %.3f s\nplain C: %.3f s\n", a, b
        if (b > 0) printf "ratio: %.2f\n", a / b
    }'
