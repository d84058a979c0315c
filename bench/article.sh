#!/bin/sh
# Time, memory, and megabytes of article read and written a second of `article` on a generated article and on one of twice its length, of
# the two kinds that chain.sh makes: a chain of rules, and the article of `trial`. The ratios are to be at most 2.2, all else
# stopped. What it writes has to be its own article, and `verify` of what it writes for the article of `trial 2` has to tell the six lines
# of `trial 2`; status 1 where not. Run `./bridge show` on any article first.
. "$(dirname "$0")/chain.sh"
failed=0
# Figures of the article of this kind with so many turns or blocks, in a line.
report() {
    "$1" "$2" >"$folder/article"
    read=$(wc -c <"$folder/article")
    least article "$folder/article" >"$folder/figure"
    written=$(wc -c <"$folder/out")
    tee -a "$folder/figures" <"$folder/figure" | awk -v read="$read" -v written="$written" '{
        printf "%.1f MB read, %.1f MB written: %.2f s, %.1f and %.1f MB a second, %d MiB\n", read / 1e6, written / 1e6, $1, read / 1e6 / $1, written / 1e6 / $1, $2 / 1024 }'
    mv "$folder/out" "$folder/written"
    if ! "$program" article "$folder/written" | cmp -s - "$folder/written"; then
        echo "what is written isn't its own article"
        failed=1
    fi
}
for kind in article trial; do
    : >"$folder/figures"
    case $kind in
        article) report article 60500 && report article 121000 ;;
        trial) report trial 20000 && report trial 40000 ;;
    esac
    ratios
done
trial 2 >"$folder/article"
"$program" article "$folder/article" >"$folder/written"
"$program" verify "$folder/written" >/dev/null 2>"$folder/told"
if "$program" trial 2 | cmp -s - "$folder/told"; then
    echo "verify of the article written for that of trial 2 tells its six lines"
else
    echo "verify of the article written for that of trial 2 tells otherwise:"
    cat "$folder/told"
    failed=1
fi
exit $failed
