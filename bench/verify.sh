#!/bin/sh
# Where the time of `verify` goes, on a generated article and on one of twice its length: the machine alone (`show`), with the
# translation and the writing (`translate`), the reading of the module with its decoding (`decode`), the reading with the kernel
# (`check`), and all (`verify`). The ratios are of `verify`, and are to be at most 2.5. Run `./bridge verify` on any article first. On a
# machine of four processors of 2.5 GHz it gave: show 0.02, translate 0.20, decode 0.02, check 0.33 and verify 0.58 seconds, 16 MiB; then
# 0.04, 0.47, 0.06, 0.32 and 0.92, 31 MiB; ratio 1.59.
. "$(dirname "$0")/chain.sh"
report() {
    article "$1" >"$folder/article"
    show=$(least show "$folder/article" | awk '{ print $1 }')
    translate=$(least translate "$folder/article" | awk '{ print $1 }')
    cp "$folder/out" "$folder/module"
    decode=$(least decode "$folder/module" | awk '{ print $1 }')
    check=$(least check "$folder/module" --budget 18446744073709551615 | awk '{ print $1 }')
    least verify "$folder/article" | tee -a "$folder/figures" | awk -v show="$show" -v translate="$translate" -v decode="$decode" -v check="$check" '{
        printf "show %.2f s, translate %.2f s, decode %.2f s, check %.2f s, verify %.2f s, %d MiB\n", show, translate, decode, check, $1, $2 / 1024 }'
}
report 2000
report 4000
ratios
