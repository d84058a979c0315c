#!/bin/sh
# Time and peak memory of making one and two million distinct applications, in terms of a thousand each, with an `abs`
# and an `inst` of each term; and the ratios of two million to one, each of which is to be at most 2.5. Run `rt run` in
# crates/bench first, which builds the program.
# On a quiet machine with four processors seven runs gave between 1.35 and 1.71 and between 3.16 and 3.58 seconds, 331
# and 660 MiB; the ratio of the times was between 2.00 and 2.42, that of the memory 1.99 or 2.00.
# The second line tells how much of it making the applications takes: 0.19 to 0.24 and 0.55 to 0.62 seconds. Its own
# ratio, between 2.5 and 2.9, is that of the caches: the time goes into the first look at a group of the hash table,
# which lies in a cache of 36 MB beside one million nodes and not beside two.
cd "$(dirname "$0")/../crates/bench" || exit 1
# Processor time in seconds and peak memory in KiB, of the quickest of five runs.
quickest() {
    for _ in 1 2 3 4 5; do
        { /usr/bin/time -f '%U %S %M' ./out/bench hol_term "$1" "$2" >/dev/null; } 2>&1 | awk '{ print $1 + $2, $3 }'
    done | sort -n | head -1
}
one=$(quickest inst 1000)
two=$(quickest inst 2000)
echo "$one $two" | awk '{ printf "app, abs, inst: %.2f and %.2f seconds, ratio %.2f; %d and %d MiB, ratio %.2f\n", $1, $3, $3 / $1, $2 / 1024, $4 / 1024, $4 / $2 }'
one=$(quickest make 1000)
two=$(quickest make 2000)
echo "$one $two" | awk '{ printf "of which app: %.2f and %.2f seconds, %d and %d MiB\n", $1, $3, $2 / 1024, $4 / 1024 }'
