#!/bin/sh
# Time and peak memory of `show` on an article that puts a list of 10,000 pairs 10,000 times into a theorem with one variable, and on
# one that puts 20,000 pairs 20,000 times; both ratios are to be at most 2.5. Each time makes a step; the list is read, judged and copied once,
# and the steps share it. Run `./bridge show` on any article first.
. "$(dirname "$0")/chain.sh"
# Kept: 0 the type bool, 1 no types and so many variables with the terms that are put for them, 2 the theorem that x0 is x0.
substituted() {
    awk -v count="$1" 'BEGIN {
        print "6\nversion\n\"bool\"\ntypeOp\nnil\nopType\n0\ndef\npop\nnil"
        for (i = 0; i < count; i++) printf "\"x%d\"\n0\nref\nvar\n\"y%d\"\n0\nref\nvar\nvarTerm\nnil\ncons\ncons\n", i, i
        print "nil"
        for (i = 0; i < count; i++) print "cons"
        print "nil\ncons\ncons\n1\ndef\npop\n\"x0\"\n0\nref\nvar\nvarTerm\nrefl\n2\ndef\npop"
        for (i = 0; i < count; i++) print "1\nref\n2\nref\nsubst\npop"
    }'
}
report() {
    substituted "$1" >"$folder/article"
    least show "$folder/article" | tee -a "$folder/figures" | awk -v count="$1" '{
        printf "%d pairs, %d times: %.2f s, %d MiB\n", count, count, $1, $2 / 1024 }'
}
report 10000
report 20000
ratios
