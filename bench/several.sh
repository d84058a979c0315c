#!/bin/sh
# Time and peak memory of `show` on two articles: the first exports theorems `c = c` of as many constants, the second states a
# hundredth as many assumptions, of which every other one is such a theorem. So 1,000 assumptions over 100,000 exports, and 2,000
# over 200,000; the ratios of the greater to the smaller are to be at most 2.5. The first line of a pair has the first article
# alone. Run `./bridge show` on any article first. On a busy machine of four processors it gave: 1.05 s and 189 MiB with 1,000
# assumptions, 2.30 s and 377 MiB with 2,000; ratio of time 2.19, of memory 1.99.
. "$(dirname "$0")/chain.sh"
# The type bool under 0, and equality over it under 1.
begin='"6\nversion\n\"bool\"\ntypeOp\nnil\nopType\n0\ndef\npop\n\"=\"\nconst\n\"->\"\ntypeOp\n0\nref\n\"->\"\ntypeOp\n0\nref\n0\nref\nnil\ncons\ncons\nopType\nnil\ncons\ncons\nopType\nconstTerm\n1\ndef\npop"'
exports() {
    awk -v count="$1" "BEGIN { print $begin"'
        for (i = 0; i < count; i++)
            printf "\"c%d\"\nconst\n0\nref\nconstTerm\n2\ndef\nrefl\nnil\n1\nref\n2\nref\nappTerm\n2\nref\nappTerm\nthm\n", i
    }'
}
assumptions() {
    awk -v count="$1" "BEGIN { print $begin"'
        for (i = 0; i < count; i++)
            printf "nil\n1\nref\n\"c%d\"\nconst\n0\nref\nconstTerm\nappTerm\n\"c%d\"\nconst\n0\nref\nconstTerm\nappTerm\naxiom\npop\n", 100 * i, 100 * i + i % 2
    }'
}
report() {
    exports "$1" >"$folder/first"
    assumptions "$(($1 / 100))" >"$folder/second"
    alone=$(least show "$folder/first")
    least show "$folder/first" "$folder/second" | tee -a "$folder/figures" | awk -v alone="$alone" -v count="$1" '{
        split(alone, first)
        printf "%d exports: %.2f s, %d MiB; with %d assumptions: %.2f s, %d MiB\n", count, first[1], first[2] / 1024, count / 100, $1, $2 / 1024 }'
}
report 100000
report 200000
ratios
