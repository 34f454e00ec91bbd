#!/usr/bin/env bash
# The published MMC3 IRQ tests as traces in board mode: tests/published/*.steps has the steps of each check with the
# result that the check asks for, as we know it (docs/OPEN.md). Of the six ROMs 3 and 4 test the PPU's address line and its timing, which are not
# part of a board here.
set -uo pipefail
source "$(dirname "${BASH_SOURCE[0]}")/need.bash" || exit 2
cd "$(dirname "${BASH_SOURCE[0]}")/.." || exit 2
need_program tracerun || exit 2
dir=$(mktemp -d)
trap 'rm -rf "$dir"' EXIT
checks=0
steps=0
failed=0

bytes() { printf '%b' "$(sed 's/../\\x&/g' <<<"$1")"; }
# one PRG and one CHR block, MMC3, horizontal
{ bytes 4E45531A010140000000000000000000; head -c 24576 /dev/zero; } >"$dir/image"

play() { # the check that has been read: its events and the lines that they are to give
  [ -n "$name" ] || return 0
  { bytes "01$(printf '%08X' 24592)01"; cat "$dir/image"; bytes "$(printf '%04X' "$count")$events"; } >"$dir/trace"
  checks=$((checks + 1))
  steps=$((steps + count))
  if [ "$count" -eq 0 ] || ! diff <(printf 'load 4 H 1 1\n%s' "$lines") <(program tracerun <"$dir/trace") >"$dir/diff"; then
    failed=$((failed + 1))
    echo "failed: $file, $name"
    head -n 6 "$dir/diff"
  fi
}
step() { # step EVENT LETTER ANSWER
  events+=$1
  lines+="$count $2 $3"$'\n'
  count=$((count + 1))
}

for file in tests/published/*.steps; do
  name=
  while read -r what a b c; do
    case $what in
    '' | '#'*) ;;
    '=') play; name="$a $b $c" events= lines= count=0 ;;
    W) step "01$a$b" W "$c" ;;
    C) for ((i = 0; i < ${b:-1}; i++)); do step 02000000 C "$a"; done ;;
    *) echo "failed: $file has a step that is none: $what"; failed=$((failed + 1)) ;;
    esac
  done <"$file"
  play
done

echo "tests/published.sh: $checks checks, $steps steps, of which $failed checks not as published"
[ "$checks" -ge 14 ] && [ "$failed" -eq 0 ]
