#!/bin/sh
# Megabytes a second of `write` into a file, on modules of 93 and 187 million bytes, by processor time, the peak memory, and the ratios of
# the two, which are to be at most 2.5. Run `rt run` in crates/bench first, which builds the program. On a machine of four
# processors that was busy it gave: 0.49 and 1.01 seconds, 191 and 185 MB/s, 5 MiB each; ratio of time 2.06.
cd "$(dirname "$0")/../crates/bench" || exit 1
folder=$(mktemp -d)
trap 'rm -r "$folder"' EXIT
# Processor time in seconds and peak memory in KiB, of the quickest of five runs.
quickest() {
    for _ in 1 2 3 4 5; do
        { /usr/bin/time -f '%U %S %M' ./out/bench dk_write "$1" "$2" >"$folder/text"; } 2>&1 | awk '{ print $1 + $2, $3 }'
    done | sort -n | head -1
}
made=$(quickest 20000 0)
one=$(quickest 20000 10)
two=$(quickest 20000 20)
echo "$made $one $two $(wc -c <"$folder/text")" | awk '{
    first = $3 - $1; second = $5 - $1
    printf "%d MB: %.2f s, %.0f MB/s, %d MiB\n", $7 / 2e6, first, $7 / 2e6 / first, $4 / 1024
    printf "%d MB: %.2f s, %.0f MB/s, %d MiB\n", $7 / 1e6, second, $7 / 1e6 / second, $6 / 1024
    printf "ratio of time %.2f, of memory %.2f\n", second / first, $6 / $4
}'
