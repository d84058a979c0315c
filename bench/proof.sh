#!/bin/sh
# Time and peak memory of `show` on an article whose proof has some 200,000 steps and on one of twice as many, in chains of 102 steps by
# substitution, reflexivity, `appThm`, `trans` and `eqMp`, whose terms share their parts; and the ratios of the greater to the smaller, each of
# which is to be at most 2.5. Run `./bridge show` on any article first. While a program made such proofs without an article, a busy machine
# with four processors took 5.27 seconds for one million steps and 11.09 for two, ratio 2.10; 1,052 and 2,103 MiB, ratio 2.00.
. "$(dirname "$0")/chain.sh"
# An article of so many chains. A chain proves f (f x) and so on of a variable of its own, and that f and g, which are equal, make the same
# of it; each term is made of the one before. Kept: 0 the type bool, 1 functions of it, 2 equality, 3 f, 4 g, 5 the variable p, 6 that g is g,
# 7 that f p is g p, 8 that p is f p; of a chain 9 the term, 10 that it equals what g makes, 11 that it is true.
chains() {
    awk -v count="$1" '
        function say(words) { gsub(/ /, "\n", words); print words }
        BEGIN {
            say("6 version \"bool\" typeOp nil opType 0 def pop \"->\" typeOp 0 ref 0 ref nil cons cons opType 1 def pop")
            say("\"=\" const \"->\" typeOp 0 ref 1 ref nil cons cons opType constTerm 2 def pop")
            say("\"f\" 1 ref var varTerm 3 def pop \"g\" 1 ref var varTerm 4 def refl 6 def pop \"p\" 0 ref var 5 def pop")
            say("nil 2 ref 3 ref 5 ref varTerm appTerm appTerm 4 ref 5 ref varTerm appTerm appTerm axiom 7 def pop")
            say("nil 2 ref 5 ref varTerm appTerm 3 ref 5 ref varTerm appTerm appTerm axiom 8 def pop")
            for (i = 0; i < count; i++) {
                say("\"x" i "\" 0 ref var varTerm 9 def refl 10 def pop nil 9 ref axiom 11 def pop")
                for (round = 0; round < 20; round++) {
                    say("nil 5 ref 9 ref nil cons cons nil cons nil cons cons 7 ref subst 6 ref 10 ref appThm trans 10 def pop")
                    say("nil 5 ref 9 ref nil cons cons nil cons nil cons cons 8 ref subst 11 ref eqMp 11 def pop")
                    say("3 ref 9 ref appTerm 9 def pop")
                }
            }
            say("11 ref nil 9 ref thm")
        }'
}
report() {
    chains "$1" >"$folder/article"
    least show "$folder/article" | tee -a "$folder/figures" | awk -v steps="$((102 * $1 + 3))" '{ printf "%d steps: %.2f s, %d MiB\n", steps, $1, $2 / 1024 }'
}
report 2000
report 4000
ratios
