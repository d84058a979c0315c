#!/bin/sh
# Time and peak memory of `translate` without `--share` and with it, and how long the module is without and with, on the article of
# `trial` with so many blocks and on one with twice as many. The ratios of twice as many are to be at most 2.2. Run `./bridge translate`
# on any article first.
. "$(dirname "$0")/chain.sh"
# Figures of both on the article of so many blocks, in a line.
report() {
    trial "$1" >"$folder/article"
    plain=$(least translate "$folder/article" | tee -a "$folder/plain")
    written=$(wc -c <"$folder/out")
    shared=$(least translate --share "$folder/article" | tee -a "$folder/shared")
    folded=$(wc -c <"$folder/out")
    echo "$1 $plain $written $shared $folded" | awk '{
        printf "%d blocks: %.2f s, %d MiB, %.1f MB of module; with shared abbreviations %.2f s, %d MiB, %.1f MB, %.2f of it\n", $1, $2, $3 / 1024, $4 / 1e6, $5, $6 / 1024, $7 / 1e6, $7 / $4 }'
}
report 5000
report 10000
for figures in plain shared; do
    cp "$folder/$figures" "$folder/figures"
    echo "$figures: $(ratios)"
done
