#!/bin/sh
# Time and peak memory of `show` on an article with a theorem of 500 hypotheses, from which 5,000 lines of 21 bytes discharge one that
# it keeps, and on one with 10,000 such lines; the ratios of the second to the first are to be at most 2.5. Each line makes a step, whose
# hypotheses are those of the theorem again. Run `./bridge show` on any article first.
. "$(dirname "$0")/chain.sh"
discharged() {
    awk -v count="$1" 'BEGIN {
        print "6\nversion\n\"bool\"\ntypeOp\nnil\nopType\n0\ndef\npop"
        for (i = 0; i < 500; i++) printf "\"p%d\"\n0\nref\nvar\nvarTerm\n", i
        print "nil"
        for (i = 0; i < 500; i++) print "cons"
        print "\"p0\"\n0\nref\nvar\nvarTerm\n3\ndef\naxiom\n4\ndef\npop\n3\nref\nassume\n5\ndef\npop"
        for (i = 0; i < count; i++) print "5\nref\n4\nref\nproveHyp\npop"
    }'
}
report() {
    discharged "$1" >"$folder/article"
    least show "$folder/article" | tee -a "$folder/figures" | awk -v count="$1" '{
        printf "%d lines: %.2f s, %d MiB\n", count, $1, $2 / 1024 }'
}
report 5000
report 10000
ratios
