#!/bin/sh
# Megabytes a second of reading a module from a file in pieces of 4,096 bytes, of 12.5 and 25 million bytes, of a generated run and of short
# declarations, by processor time, the peak memory, and the ratios of 25 to 12.5; then the seconds of forty types with 8,000 and with
# 16,000 binders open, at each of which the outermost is looked up, and their ratio. Each ratio is to be at most 2.5. Run `rt run` in
# crates/bench first, which builds the program. While the text was made in memory and read there, a shared machine of four processors of
# 2.5 GHz gave: of a generated run 0.20 and 0.38 seconds, 63 and 66 MB/s, ratio 1.90; of short declarations 0.20 and 0.44 seconds, 63 and 57
# MB/s, ratio 2.20; 0.05 and 0.10 seconds with open binders, ratio 2.00.
bench="$(dirname "$0")/../crates/bench/out/bench"
folder=$(mktemp -d)
trap 'rm -rf "$folder"' EXIT
# So many lines of 100 bytes: a comment and two declarations.
lines() {
    awk -v count="$1" 'BEGIN {
        for (i = 1000000; i < 1000000 + count; i++)
            print "(; two declarations. ;) x" i " : type -> term bool. def d" i " : type -> type := a : type => a."
    }'
}
# Forty types of so many binders, in each of whose domains the outermost is looked up.
types() {
    awk -v count="$1" 'BEGIN {
        for (n = 1000000; n < 1000040; n++) {
            printf "q%d : v : type -> ", n
            for (i = 1000000; i < 1000000 + count; i++) printf "w%d : term v -> ", i
            print "type."
        }
    }'
}
# So many blocks as the translation of a generated article has them.
blocks() {
    awk -v count="$1" 'BEGIN {
        print "trans : type.\ni_f : term (arr bool bool).\nT0 : type.\nc1000000 : type.\nT1000004 : type."
        for (i = 1; i < count; i++) {
            c = "c" (1000000 + i); l = "c" (999999 + i); t = 1000000 + 5 * i; last = "T" (t - 1)
            print "def " c " : term (arr bool bool) := v0 : term bool => " l " v0."
            print "(; bound 21952000 ;)"
            print "thm T" t " : proof (eq (arr bool bool) " c " (v0 : term bool => " l " v0)) := refl (arr bool bool) " c "."
            print "(; bound 124251499 ;)"
            print "thm T" (t + 1) " : v0 : term bool -> proof (eq bool (" c " v0) ((v1 : term bool => " l " v1) v0)) := v0 : term bool => app_thm bool bool " c " (v1 : term bool => " l " v1) v0 v0 T" t " (T0 v0)."
            print "(; bound 64000000 ;)"
            print "thm T" (t + 2) " : v0 : term bool -> proof (eq bool ((v1 : term bool => " l " v1) v0) (" l " v0)) := v0 : term bool => refl bool (" l " v0)."
            print "(; bound 191102976 ;)"
            print "thm T" (t + 3) " : v0 : term bool -> proof (eq bool (" c " v0) (" l " v0)) := v0 : term bool => trans bool (" c " v0) ((v1 : term bool => " l " v1) v0) (" l " v0) (T" (t + 1) " v0) (T" (t + 2) " v0)."
            print "(; bound 141420761 ;)"
            print "thm T" (t + 4) " : v0 : term bool -> proof (eq bool (" c " v0) (i_f v0)) := v0 : term bool => trans bool (" c " v0) (" l " v0) (i_f v0) (T" (t + 3) " v0) (" last " v0)."
        }
    }'
}
# Bytes, processor time in seconds and peak memory in KiB of reading so much of a kind, of the quickest of twenty runs: on a shared machine most
# are slower.
quickest() {
    { "$bench" dk_write 0 1; "$1" "$2"; } >"$folder/module"
    for _ in $(seq 20); do
        { /usr/bin/time -f '%U %S %M' "$bench" dk_read read "$folder/module" >/dev/null; } 2>&1 | awk '{ print $1 + $2, $3 }'
    done | sort -n | head -1 | sed "s/^/$(wc -c <"$folder/module") /"
}
# The figures of a kind, of so much of it and of twice as much: the name, the kind and how much.
compare() {
    half=$(quickest "$2" "$3")
    whole=$(quickest "$2" $(($3 * 2)))
    echo "$half $whole" | awk -v name="$1" '{
        printf "%s, %.1f MB: %.2f s, %.1f MB/s, %d MiB\n", name, $1 / 1e6, $2, $1 / 1e6 / $2, $3 / 1024
        printf "%s, %.1f MB: %.2f s, %.1f MB/s, %d MiB\n", name, $4 / 1e6, $5, $4 / 1e6 / $5, $6 / 1024
        printf "ratio of time %.2f, of memory %.2f\n", $5 / $2, $6 / $3
    }'
}
compare "generated run" blocks 12278
compare "short declarations" lines 125000
compare "open binders" types 8000
