#!/bin/sh
# The native stack that the program needs on terms, types, lists of objects and trees of a module that are at or near the limits of depth,
# or deep where there is no limit: for each call the least of 64, 128, 256, 512 and 1024 KiB with which it ends as it should. All are to
# end under 1024; each of them ended with 64. Run `./bridge show` on any article first.
. "$(dirname "$0")/chain.sh"
bool='"bool" typeOp nil opType'
lines() { tr ' ' '\n'; }
often() { awk -v count="$1" -v part="$2" 'BEGIN { for (i = 0; i < count; i++) printf " %s", part }'; }
# f applied 16,380 times to p, assumed and exported.
terms() {
    echo "6 version $bool 0 def pop \"f\" const \"->\" typeOp 0 ref 0 ref nil cons cons opType constTerm 1 def pop nil$(often 16380 '1 ref') \"p\" 0 ref var varTerm$(often 16380 appTerm) 2 def axiom nil 2 ref thm" | lines
}
# x = x at the deepest type at which it is within the limits, of depth 16,377.
types() {
    echo "6 version nil$(often 16376 '"list" typeOp') \"a\" varType$(often 16376 'nil cons opType') 0 def pop \"=\" const \"->\" typeOp 0 ref \"->\" typeOp 0 ref $bool nil cons cons opType nil cons cons opType constTerm \"x\" 0 ref var varTerm appTerm \"x\" 0 ref var varTerm appTerm 1 def axiom nil 1 ref thm" | lines
}
# g of as many abstractions, one in another, as are within the limits, 8,189.
binders() {
    echo "6 version $bool 0 def 1 def pop$(often 8189 '"->" typeOp 0 ref 1 ref nil cons cons opType 1 def pop') nil \"g\" const \"->\" typeOp 1 ref 0 ref nil cons cons opType constTerm \"p\" 0 ref var varTerm 2 def pop$(awk 'BEGIN { for (i = 0; i < 8189; i++) printf " \"x%d\" 0 ref var", i }') 2 ref$(often 8189 absTerm) appTerm 3 def axiom nil 3 ref thm" | lines
}
# The first of so many variables assumed under all of them.
parameters() {
    variables=$(awk 'BEGIN { for (i = 0; i < 8192; i++) printf " \"x%d\" 0 ref var varTerm", i }')
    echo "6 version $bool 0 def pop$variables nil$(often 8192 cons) 1 def \"x0\" 0 ref var varTerm axiom 1 ref \"x0\" 0 ref var varTerm thm" | lines
}
# A list in a list, 200,000 times.
lists() {
    echo "6 version nil$(often 200000 'nil cons')" | lines
}
# A module whose body is 262,144 deep.
trees() {
    "$program" translate "$folder/empty.art" 2>/dev/null
    awk 'BEGIN { printf "def q : type :="; for (i = 0; i < 262142; i++) printf " arr bool ("; printf " bool"; for (i = 0; i < 262142; i++) printf ")"; print "." }'
    echo "E0 : proof q."
}
# The least stack with which a call ends with this status.
needs() {
    wanted=$1
    shift
    for size in 64 128 256 512 1024; do
        { (ulimit -s "$size" && "$program" "$@" >"$folder/out" 2>"$folder/note"); } 2>/dev/null
        if [ $? = "$wanted" ]; then
            echo "$size KiB: $(basename "$2") $1"
            return
        fi
    done
    echo "not under 1024 KiB: $(basename "$2") $1: $(head -c 200 "$folder/note")"
}
printf '6\nversion\n' >"$folder/empty.art"
for case in terms types binders parameters lists; do
    $case >"$folder/$case.art"
    needs 0 show "$folder/$case.art"
    needs 0 translate "$folder/$case.art"
    needs 0 verify "$folder/$case.art"
    needs 0 article "$folder/$case.art"
    [ "$case" = lists ] && continue
    "$program" translate "$folder/$case.art" >"$folder/$case.dk" 2>/dev/null
    needs 0 check "$folder/$case.dk" --budget 1000000000000
    needs 0 decode "$folder/$case.dk"
done
trees >"$folder/trees.dk"
needs 7 check "$folder/trees.dk"
needs 9 decode "$folder/trees.dk"
