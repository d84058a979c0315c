# Read by the scripts beside it: generated articles, and what a run of the program takes.
program=$(dirname "$0")/../crates/bridge_cli/out/bridge_cli
folder=$(mktemp -d)
trap 'rm -rf "$folder"' EXIT
# An article of so many turns: a chain of `trans` over `sym`, `betaConv` and `appThm`, five steps for each new variable, over terms
# that the steps share. Kept: 0 the type bool, 1 the term \x. p, 2 the theorem that the first redex is p, 3 that a redex is p, 4 that h is h.
article() {
    awk -v turns="$1" 'BEGIN {
        print "6\nversion"
        print "\"bool\"\ntypeOp\nnil\nopType\n0\ndef\npop"
        print "\"x\"\n0\nref\nvar\n\"p\"\n0\nref\nvar\nvarTerm\nabsTerm\n1\ndef\npop"
        print "1\nref\n\"q\"\n0\nref\nvar\nvarTerm\nappTerm\nbetaConv\n2\ndef\npop"
        print "\"h\"\n\"->\"\ntypeOp\n0\nref\n0\nref\nnil\ncons\ncons\nopType\nvar\nvarTerm\nrefl\n4\ndef\npop"
        for (i = 0; i < turns; i++) {
            printf "1\nref\n\"q%d\"\n0\nref\nvar\nvarTerm\nappTerm\nbetaConv\n3\ndef\npop\n", i
            print "2\nref\n3\nref\nsym\ntrans\n5\ndef\n3\nref\ntrans\n2\ndef\npop\n4\nref\n5\nref\nappThm\npop"
        }
        print "2\nref\nnil\n\"=\"\nconst\n\"->\"\ntypeOp\n0\nref\n\"->\"\ntypeOp\n0\nref\n0\nref\nnil\ncons\ncons\nopType\nnil\ncons\ncons\nopType\nconstTerm"
        print "1\nref\n\"q\"\n0\nref\nvar\nvarTerm\nappTerm\nappTerm\n\"p\"\n0\nref\nvar\nvarTerm\nappTerm\nthm"
    }'
}
# The article of a trial with so many blocks: each constant is defined by the one before it, and the last one is f at p.
trial() {
    awk -v blocks="$1" '
        function say(words) { gsub(/ /, "\n", words); print words }
        BEGIN {
            say("6 version \"bool\" typeOp nil opType 0 def pop \"->\" typeOp 0 ref 0 ref nil cons cons opType 1 def pop")
            say("\"p\" 0 ref var varTerm 2 def refl 3 def pop \"x\" 0 ref var 4 def pop \"f\" const 1 ref constTerm 5 def pop")
            for (i = 1; i <= blocks; i++) {
                say("\"c" i "\" 4 ref 5 ref 4 ref varTerm appTerm absTerm 6 def defineConst 3 ref appThm 6 ref 2 ref appTerm betaConv trans")
                if (i > 1) say("7 ref trans")
                say("7 def pop 1 ref constTerm 5 def pop")
            }
            say("7 ref nil \"=\" const \"->\" typeOp 0 ref 1 ref nil cons cons opType constTerm")
            say("5 ref 2 ref appTerm appTerm \"f\" const 1 ref constTerm 2 ref appTerm appTerm thm")
        }'
}
# The least seconds of three runs with these words, and the KiB of that run; what it writes goes to a file.
least() {
    for _ in 1 2 3; do
        /usr/bin/time -o "$folder/time" -f '%U %S %M' "$program" "$@" >"$folder/out" 2>/dev/null
        awk '{ print $1 + $2, $3 }' "$folder/time"
    done | sort -n | head -1
}
# The ratios of the second line of figures to the first: time and memory.
ratios() {
    awk 'NR % 2 { time = $1; memory = $2; next } { printf "ratio of time %.2f, of memory %.2f\n", $1 / time, $2 / memory }' "$folder/figures"
}
