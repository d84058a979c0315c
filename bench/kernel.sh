#!/bin/sh
# Steps of budget a second, and megabytes of module a second, of `check` on the module of a generated run of 500 definitions and on one of
# 1,000, six declarations for each, and of 10,000 and 20,000, which take long enough to be told; by processor time, less that of reading
# alone; the peak memory, and the ratios of the greater to the smaller, which are to be at most 2.5. With the names of files, the same of the
# module in each: what `check` says, the megabytes a second, with rechecks of sorts and without, the steps that its declarations take each by
# itself, and the peak memory beside that of reading alone; and the ratios of each to the one before it. Run `./bridge show` on any article
# first, and `rt run` in crates/bench, which build the programs. `repeated.py MODULE N` writes a module with the declarations of another N
# times, under new names. What it gave docs/SPEED.md tells.
. "$(dirname "$0")/chain.sh"
bench="$(dirname "$0")/../crates/bench/out/bench"
# The module of so many definitions: transitivity of equality, as far as the chain needs it, the function and reflexivity at a variable; then
# for each definition that it is the function.
module() {
    "$bench" dk_write 0 1
    awk -v count="$1" 'BEGIN {
        print "thm trans : a : type -> x : term a -> y : term a -> z : term a -> proof (eq a x y) -> proof (eq a y z) -> proof (eq a x z) := a : type => x : term a => y : term a => z : term a => h : proof (eq a x y) => k : proof (eq a y z) => eq_mp (eq a x y) (eq a x z) (app_thm a bool (eq a x) (eq a x) y z (refl (arr a bool) (eq a x)) k) h."
        print "c0 : term (arr bool bool)."
        print "thm same : p : term bool -> proof (eq bool p p) := p : term bool => refl bool p."
        print "thm chain0 : p : term bool -> proof (eq bool (c0 p) (c0 p)) := p : term bool => refl bool (c0 p)."
        for (i = 0; i < count; i++) {
            c = "c" (i + 1); l = "c" i
            print "def " c " : term (arr bool bool) := x : term bool => " l " x."
            print "thm unfold" (i + 1) " : proof (eq (arr bool bool) " c " (x : term bool => " l " x)) := refl (arr bool bool) (x : term bool => " l " x)."
            print "thm apply" (i + 1) " : p : term bool -> proof (eq bool (" c " p) ((x : term bool => " l " x) p)) := p : term bool => app_thm bool bool " c " (x : term bool => " l " x) p p unfold" (i + 1) " (same p)."
            print "thm beta" (i + 1) " : p : term bool -> proof (eq bool ((x : term bool => " l " x) p) (" l " p)) := p : term bool => refl bool (" l " p)."
            print "thm link" (i + 1) " : p : term bool -> proof (eq bool (" c " p) (" l " p)) := p : term bool => trans bool (" c " p) ((x : term bool => " l " x) p) (" l " p) (apply" (i + 1) " p) (beta" (i + 1) " p)."
            print "thm chain" (i + 1) " : p : term bool -> proof (eq bool (" c " p) (c0 p)) := p : term bool => trans bool (" c " p) (" l " p) (c0 p) (link" (i + 1) " p) (chain" i " p)."
        }
    }'
}
# Processor time in seconds and peak memory in KiB of reading a module, of the quickest of three runs.
reading() {
    for _ in 1 2 3; do
        { /usr/bin/time -f '%U %S %M' "$bench" dk_read read "$1" >/dev/null; } 2>&1 | awk '{ print $1 + $2, $3 }'
    done | sort -n | head -1
}
# The figures of the module in a file, in a line that begins with its name.
report() {
    read_=$(reading "$1")
    check=$(least check "$1" --budget 18446744073709551615)
    said=$("$program" check "$1" --budget 18446744073709551615 2>&1 | tr '\n' ' ')
    fast=$(least check --fast "$1" --budget 18446744073709551615)
    steps=$("$bench" lp_kernel steps "$1" | sed 's/.*, \([0-9]*\) steps/\1/')
    echo "$(wc -c <"$1") $steps $read_ $check $fast" | awk -v name="$2" -v said="$said" '{
        time = $5 - $3
        fast = $7 - $3
        printf "%s: %s%.1f MB, %d steps, %.2f s, %.1f million steps a second, %.1f MB a second, %d MiB, without rechecks %.2f s, %.1f MB a second, reading alone %.2f s, %d MiB\n",
            name, said, $1 / 1e6, $2, time, $2 / time / 1e6, $1 / time / 1e6, $6 / 1024, fast, $1 / fast / 1e6, $3, $4 / 1024
    }'
    echo "$read_ $check" >>"$folder/ratios"
}
if [ $# -gt 0 ]; then
    for file in "$@"; do
        report "$file" "$file"
    done
    awk 'NR > 1 { printf "ratio of time %.2f, of memory %.2f\n", ($3 - $1) / time, $4 / memory } { time = $3 - $1; memory = $4 }' "$folder/ratios"
else
    for count in 500 1000 10000 20000; do
        module "$count" >"$folder/module"
        report "$folder/module" "$count definitions"
    done
    awk 'NR % 2 { time = $3 - $1; memory = $4; next } { printf "ratio of time %.2f, of memory %.2f\n", ($3 - $1) / time, $4 / memory }' "$folder/ratios"
fi
