#!/bin/sh
# Runs each call of answers.txt with a built program and compares what it writes to standard output and to standard error, and its
# status. Each call that differs is told, and a last line counts.
# usage: examples/compare.sh [PROGRAM]     without PROGRAM the one that `bridge` runs
# status: 0 where all are as stored, 1 where one differs, 125 where there is no program
here=$(CDPATH='' cd -- "$(dirname -- "$0")" && pwd) || exit 125
program=${1:-$here/../crates/bridge_cli/out/bridge_cli}
if [ ! -x "$program" ]; then
  echo "compare.sh: there is no program at $program; a call of bridge builds it" >&2
  exit 125
fi
program=$(readlink -f -- "$program") || exit 125
room=$(mktemp -d) || exit 125
trap 'rm -rf "$room"' EXIT
trap 'exit 125' INT TERM HUP
cd "$here" || exit 125
set -f
good=0 bad=0 words= begun=

# runs the call that was read, and compares
judge() {
  # words of answers.txt have no blanks in them
  # shellcheck disable=SC2086
  "$program" $words >"$room/out" 2>"$room/note" </dev/null
  status=$?
  if cmp -s "$room/out" "$out" && cmp -s "$room/note" "$room/wanted_note" && [ "$status" = "$wanted" ]; then
    good=$((good + 1))
    return
  fi
  bad=$((bad + 1))
  echo "differs: bridge $words"
  [ "$status" = "$wanted" ] || echo "  status $status, and $wanted was wanted"
  diff -- "$out" "$room/out" | head -n 5
  diff -- "$room/wanted_note" "$room/note" | head -n 5
}

while IFS= read -r line; do
  case $line in
    '$ '*)
      words=${line#'$ '} begun=1 wanted=0 out=$room/wanted_out
      : >"$room/wanted_out"
      : >"$room/wanted_note"
      ;;
    '> '*) printf '%s\n' "${line#'> '}" >>"$room/wanted_out" ;;
    '< '*) out=${line#'< '} ;;
    '! '*) printf '%s\n' "${line#'! '}" >>"$room/wanted_note" ;;
    '= '*) wanted=${line#'= '} ;;
    '') if [ -n "$begun" ]; then judge; begun=; fi ;;
  esac
done <answers.txt
[ -z "$begun" ] || judge
echo "$good as stored, $bad differ"
[ "$bad" -eq 0 ]
