#!/bin/sh
# Time and peak memory of `show` on an article with a term of 20,000 nodes and one variable, of which 20,000 lines make an abstraction by a
# variable that isn't in it and 20,000 put a term for such a variable into a theorem about it, and on one with twice of each. A line passes
# over the term, also where its variable's name has the same one of 64 bits as the term's, because the variable came after the term: so the
# ratio of the times is near 2. Run `./bridge show` on any article first.
. "$(dirname "$0")/chain.sh"
# Kept: 0 the type bool, 1 equality, 2 the variable a, 3 what is equal to a, 4 the term, of parts of 4,000 nodes, 5 a part, 6 that the term is
# itself.
absent() {
    awk -v count="$1" 'BEGIN {
        print "6\nversion\n\"bool\"\ntypeOp\nnil\nopType\n0\ndef\npop"
        print "\"=\"\nconst\n\"->\"\ntypeOp\n0\nref\n\"->\"\ntypeOp\n0\nref\n0\nref\nnil\ncons\ncons\nopType\nnil\ncons\ncons\nopType\nconstTerm"
        print "1\ndef\n\"a\"\n0\nref\nvar\nvarTerm\n2\ndef\nappTerm\n3\ndef\npop\n2\nref\n4\ndef\npop"
        for (part = 0; part < count / 4000; part++) {
            printf "\"c%d\"\nconst\n0\nref\nconstTerm\n5\ndef\npop\n", part
            for (i = 0; i < 4000; i++) print "3\nref\n5\nref\nappTerm\n5\ndef\npop"
            print "1\nref\n4\nref\nappTerm\n5\nref\nappTerm\n4\ndef\npop"
        }
        print "4\nref\nrefl\n6\ndef\npop"
        for (i = 0; i < count; i++) {
            printf "\"x%d\"\n0\nref\nvar\n4\nref\nabsTerm\npop\n", i
            printf "nil\n\"x%d\"\n0\nref\nvar\n2\nref\nnil\ncons\ncons\nnil\ncons\nnil\ncons\ncons\n6\nref\nsubst\npop\n", i
        }
    }'
}
report() {
    absent "$1" >"$folder/article"
    least show "$folder/article" | tee -a "$folder/figures" | awk -v count="$1" '{
        printf "%d lines, %d nodes: %.2f s, %d MiB\n", 2 * count, count, $1, $2 / 1024 }'
}
report 20000
report 40000
ratios
