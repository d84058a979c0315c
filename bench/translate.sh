#!/bin/sh
# Time, memory, and megabytes of article and of module a second of `translate` on a generated article and on one of twice its
# length; the ratios are to be at most 2.5. Run `./bridge translate` on any article first, which builds the program.
. "$(dirname "$0")/chain.sh"
report() {
    article "$1" >"$folder/article"
    read=$(wc -c <"$folder/article")
    least translate "$folder/article" >"$folder/figure"
    written=$(wc -c <"$folder/out")
    tee -a "$folder/figures" <"$folder/figure" | awk -v read="$read" -v written="$written" '{
        printf "%.1f MB of article, %.1f MB of module: %.2f s, %.1f and %.1f MB a second, %d MiB\n", read / 1e6, written / 1e6, $1, read / 1e6 / $1, written / 1e6 / $1, $2 / 1024 }'
}
report 2000
report 4000
ratios
