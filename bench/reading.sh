#!/bin/sh
# How long `translate` takes to read 8 and 16 million bytes of comment lines, the ratio of the two times, and the
# greatest memory that it held. Reading is linear where the ratio is near 2. Run by hand; it asserts nothing.
set -eu
top=$(CDPATH= cd -- "$(dirname -- "$0")/.." && pwd)
room=$(mktemp -d)
trap 'rm -rf "$room"' EXIT
article() { # bytes of comment lines
  printf '6\nversion\n"p"\n'
  yes '# a comment line of an article, which the machine never sees' | head -c "$1"
  printf '\n'
}
seconds() { # file
  /usr/bin/time -f '%e %M' "$top/bridge" translate "$1" 2>&1 >"$room/module" | tail -n 1
}
"$top/bridge" translate "$top/examples/reflexivity.art" >/dev/null 2>&1
article 8000000 >"$room/8.art"
article 16000000 >"$room/16.art"
eight=$(seconds "$room/8.art")
sixteen=$(seconds "$room/16.art")
echo "$eight $sixteen" | awk '{
  printf " 8 MB: %s s, %s kB\n16 MB: %s s, %s kB\nratio: %.2f\n", $1, $2, $3, $4, ($1 > 0 ? $3 / $1 : 0)
}'
