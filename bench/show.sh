#!/bin/sh
# Time, memory and megabytes of article a second of `show` on a generated article of 8 MB and on one of 16 MB; the ratios of
# the greater to the smaller are to be at most 2.5. Run `./bridge show` on any article first, which builds the program.
# On a busy machine with four processors one run gave 1.54 and 3.07 seconds, 5.2 MB a second of both, 310 and 618 MiB; ratios
# 1.99 and 1.99.
. "$(dirname "$0")/chain.sh"
report() {
    article "$1" >"$folder/article"
    bytes=$(wc -c <"$folder/article")
    least show "$folder/article" | tee -a "$folder/figures" | awk -v bytes="$bytes" -v steps="$((5 * $1))" '{
        printf "%.1f MB, %d steps: %.2f s, %.1f MB a second, %d MiB\n", bytes / 1e6, steps, $1, bytes / 1e6 / $1, $2 / 1024 }'
}
report 60500
report 121000
ratios
