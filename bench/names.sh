#!/bin/sh
# What names cost that are chosen to collide: seconds and peak memory of `translate` of an article that exports as many constants, and of
# `check` of a module that declares four times as many types, for n names and for 2n. The names are plain, `c` and a number; or blocks of two kinds in a
# row, which a polynomial of 1099511628211 over their bytes takes for one another; or alike in their last bytes, which choose the place of a
# guess. The ratios of 2n to n are to be at most 2.5, and the times of the other names in proportion to the lengths of the names. Run
# `./bridge show` on any article first.
. "$(dirname "$0")/chain.sh"
# Names of a kind, a line each.
names() {
    awk -v kind="$1" -v count="$2" 'BEGIN {
        for (i = 0; i < count; i++) {
            if (kind == "plain") print "c" i
            else if (kind == "alike") print "c" i "_and_twenty_more_bytes"
            else {
                name = ""; left = i
                for (block = 0; block < 16; block++) {
                    name = name (left % 2 ? "JDHEAHADAAARAB" : "AAAAGALAKCMAEA")
                    left = int(left / 2)
                }
                print name
            }
        }
    }'
}
# The article that assumes and exports a constant of each name, of the type bool.
exports() {
    printf '6\nversion\n"bool"\ntypeOp\nnil\nopType\n0\ndef\npop\n'
    awk '{ printf "\"%s\"\nconst\n0\nref\nconstTerm\n1\ndef\nassume\n1\nref\nnil\ncons\n1\nref\nthm\n", $0 }'
}
# The module that declares a type of each name.
declared() {
    cat "$folder/prelude"
    awk '{ printf "%s : type.\n", $0 }'
}
report() {
    names "$1" "$2" >"$folder/names"
    exports <"$folder/names" >"$folder/article"
    least translate "$folder/article" >>"$folder/figures"
    tail -1 "$folder/figures" | awk -v kind="$1" -v count="$2" '{ printf "%s names, %d exports: %.2f s, %d MiB\n", kind, count, $1, $2 / 1024 }'
    names "$1" $(($2 * 4)) >"$folder/names"
    declared <"$folder/names" >"$folder/module.dk"
    least check "$folder/module.dk" >>"$folder/checks"
    tail -1 "$folder/checks" | awk -v kind="$1" -v count="$(($2 * 4))" '{ printf "%s names, %d declarations: %.2f s, %d MiB\n", kind, count, $1, $2 / 1024 }'
}
# The signature, with which each module begins: what comes before the lemmas of a module of one export.
names plain 1 | exports >"$folder/one"
"$program" translate "$folder/one" 2>/dev/null | awk '/^sub_rep_abs/ { last = 1 } { print } last { exit }' >"$folder/prelude"
for kind in plain colliding alike; do
    : >"$folder/figures"
    : >"$folder/checks"
    report "$kind" 8000
    report "$kind" 16000
    ratios
    mv "$folder/checks" "$folder/figures"
    ratios
done
