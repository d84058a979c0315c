#!/bin/sh
# Refuses one request for memory of a call, the first, the second and so on until a run meets no refusal: of `verify` with one article and
# with two, of `translate`, `show`, `article`, `check`, `decode` and `trial`. Each run is to give what the call gives where nothing is refused, or to
# end with status 5, nothing on standard output and `out of memory` on standard error. For each call it tells how many runs met a refusal
# and how many of them ended so, and prints each that did otherwise. It needs a C compiler, for the few lines that stand before the C
# library's `malloc` and `realloc`. Run `./bridge show` on any article first. What it gave docs/SPEED.md tells.
. "$(dirname "$0")/chain.sh"
examples=$(dirname "$0")/../examples
cat >"$folder/refuse.c" <<'C'
#define _GNU_SOURCE
#include <dlfcn.h>
#include <errno.h>
#include <stdio.h>
#include <stdlib.h>

static void *(*first_malloc)(size_t), *(*first_realloc)(void *, size_t);
static unsigned long requests, refused;

static int is_refused(void) {
    if (!first_malloc) {
        first_realloc = dlsym(RTLD_NEXT, "realloc");
        first_malloc = dlsym(RTLD_NEXT, "malloc");
        refused = strtoul(getenv("REFUSED"), 0, 10);
    }
    if (++requests != refused) return 0;
    fclose(fopen(getenv("MET"), "w"));
    errno = ENOMEM;
    return 1;
}

void *malloc(size_t size) { return is_refused() ? 0 : first_malloc(size); }
void *realloc(void *old, size_t size) { return is_refused() ? 0 : first_realloc(old, size); }
C
cc -shared -fPIC -O1 -o "$folder/refuse.so" "$folder/refuse.c" -ldl || exit 1
printf 'out of memory\n' >"$folder/memory"
failed=0
tried() {
    "$program" "$@" >"$folder/out0" 2>"$folder/note0"
    status0=$?
    number=0
    ended=0
    while :; do
        number=$((number + 1))
        rm -f "$folder/met"
        REFUSED=$number MET=$folder/met LD_PRELOAD=$folder/refuse.so "$program" "$@" >"$folder/out1" 2>"$folder/note1"
        status1=$?
        [ -e "$folder/met" ] || break
        if [ $status1 = 5 ] && [ ! -s "$folder/out1" ] && cmp -s "$folder/note1" "$folder/memory"; then
            ended=$((ended + 1))
        elif [ $status1 != "$status0" ] || ! cmp -s "$folder/out1" "$folder/out0" || ! cmp -s "$folder/note1" "$folder/note0"; then
            echo "request $number of $*: status $status1, $(head -c 100 "$folder/note1")"
            failed=1
        fi
    done
    echo "$(echo "$*" | sed "s#$examples/##g; s#$folder/##g"): status $status0, $((number - 1)) requests refused, $ended answered with want of memory"
}
"$program" translate "$examples/reflexivity.art" >"$folder/reflexivity.dk" 2>"$folder/note"
tried verify "$examples/reflexivity.art"
tried verify --fast "$examples/reflexivity.art"
tried verify "$examples/exporting.art" "$examples/assuming.art"
tried translate "$examples/exporting.art" "$examples/assuming.art"
tried show "$examples/exporting.art" "$examples/assuming.art"
tried show "$examples/reflexivity.art"
tried article "$examples/reflexivity.art"
tried article "$examples/assuming.art" "$examples/exporting.art"
tried article "$examples/exporting.art" "$examples/assuming.art"
tried check "$folder/reflexivity.dk"
tried check --fast "$folder/reflexivity.dk"
tried decode "$folder/reflexivity.dk"
tried trial 2
exit $failed
