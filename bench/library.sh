#!/bin/sh
# Time, memory and megabytes a second of each form on an article from a file, plain or packed by gzip: `show`, `translate`, `translate --share`,
# `article`, `verify`, `verify --fast`, and of the module that `translate` makes `check`, `check --fast` and `decode`. Megabytes are those of the
# article for `show` and `article`, and those of the module for the others. With a second file, the same of it, and the ratios of its figures
# to those of the first. The quickest of RUNS runs (3 where it isn't set), processor time. Run `./bridge show` on any article first, or set
# `program` to another build.
#
#     bench/library.sh FILE [FILE]
: "${program:=$(dirname "$0")/../crates/bridge_cli/out/bridge_cli}"
folder=$(mktemp -d "${TMPDIR:-/tmp}/library.XXXXXX") || exit 1
trap 'rm -rf "$folder"' EXIT
# Processor time in seconds and peak memory in KiB of the quickest run, with standard output in the folder.
quickest() {
    for _ in $(seq "${RUNS:-3}"); do
        /usr/bin/time -o "$folder/time" -f '%U %S %M' "$program" "$@" >"$folder/out" 2>"$folder/note"
        awk 'NF == 3 { print $1 + $2, $3 }' "$folder/time"
    done | sort -n | head -1
}
# A line of figures: the form, its bytes, time and memory, which are kept for the ratios.
form() {
    bytes=$1
    name=$2
    shift 2
    echo "$name $bytes $(quickest "$@")" | tee -a "$figures" | awk '{
        printf "%-18s %8.2f s %8.1f MB a second %6d MiB\n", $1, $3, $2 / 1e6 / ($3 > 0 ? $3 : 0.01), $4 / 1024 }'
}
# All forms on an article.
report() {
    figures=$folder/figures$2
    case $1 in
        *.gz) gzip -dc "$1" >"$folder/article" ;;
        *) cp "$1" "$folder/article" ;;
    esac
    "$program" translate "$folder/article" >"$folder/module" 2>/dev/null || { echo "$1 is refused"; exit 1; }
    read=$(wc -c <"$folder/article")
    made=$(wc -c <"$folder/module")
    echo "$read $made" | awk -v name="$1" '{ printf "%s: article %.2f MB, module %.1f MB\n", name, $1 / 1e6, $2 / 1e6 }'
    form "$read" show show "$folder/article"
    form "$read" article article "$folder/article"
    form "$made" translate translate "$folder/article"
    form "$made" translate--share translate --share "$folder/article"
    form "$made" verify verify "$folder/article"
    form "$made" verify--fast verify --fast "$folder/article"
    form "$made" check check "$folder/module"
    form "$made" check--fast check --fast "$folder/module"
    form "$made" decode decode "$folder/module"
}
[ $# -ge 1 ] || { echo "usage: bench/library.sh FILE [FILE]" >&2; exit 2; }
report "$1" 1
[ $# -ge 2 ] || exit 0
report "$2" 2
echo "the second to the first"
paste -d' ' "$folder/figures1" "$folder/figures2" | awk '{
    printf "%-18s bytes %5.2f, time %5.2f, memory %5.2f\n", $1, $6 / $2, $7 / ($3 > 0 ? $3 : 0.01), $8 / $4 }'
