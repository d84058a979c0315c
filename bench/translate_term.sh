#!/bin/sh
# Time and peak memory of `translate` on an article of terms of a thousand applications each under a binder, each of which is exported as equal
# to itself: one million applications, and two million; beside them those of `show`, which doesn't translate; and the ratios of the greater to
# the smaller, each of which is to be at most 2.5. Run `./bridge show` on any article first.
. "$(dirname "$0")/chain.sh"
# An article of so many terms. Kept: 0 the type bool, 1 functions of it, 2 equality of these functions, 3 f, 4 g, 5 the variable that is bound.
terms() {
    awk -v count="$1" '
        function say(words) { gsub(/ /, "\n", words); print words }
        BEGIN {
            say("6 version \"bool\" typeOp nil opType 0 def pop \"->\" typeOp 0 ref 0 ref nil cons cons opType 1 def pop")
            say("\"=\" const \"->\" typeOp 1 ref \"->\" typeOp 1 ref 0 ref nil cons cons opType nil cons cons opType constTerm 2 def pop")
            say("\"f\" 1 ref var varTerm 3 def pop \"g\" \"->\" typeOp 0 ref 1 ref nil cons cons opType var varTerm 4 def pop")
            say("\"y\" 0 ref var 5 def pop")
            for (i = 0; i < count; i++) {
                say("5 ref")
                for (n = 0; n < 998; n++) say("3 ref")
                say("4 ref \"x" i "\" 0 ref var varTerm appTerm 5 ref varTerm appTerm")
                for (n = 0; n < 998; n++) print "appTerm"
                say("absTerm 6 def refl nil 2 ref 6 ref appTerm 6 ref appTerm thm")
            }
        }'
}
report() {
    terms "$1" >"$folder/article"
    least show "$folder/article" >>"$folder/shown"
    least translate "$folder/article" >>"$folder/figures"
    paste "$folder/shown" "$folder/figures" | tail -1 | awk -v count="$1" '{
        printf "%d terms: show %.2f s, %d MiB; translate %.2f s, %d MiB\n", count, $1, $2 / 1024, $3, $4 / 1024 }'
}
report 1000
report 2000
ratios
