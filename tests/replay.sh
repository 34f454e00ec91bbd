#!/usr/bin/env bash
# The program replay finds a recorded answer that was changed, and names its place; a file that is cut, goes on or is
# another is found too.
set -uo pipefail
source "$(dirname "${BASH_SOURCE[0]}")/need.bash" || exit 2
cd "$(dirname "${BASH_SOURCE[0]}")/.." || exit 2
need_program replay || exit 2
work=$(mktemp -d)
trap 'rm -rf "$work"' EXIT
file=$work/file
tried=0
failed=0

# says WHAT START: the program says one line, which begins with START.
says() {
  local said
  said=$(program replay <"$file")
  tried=$((tried + 1))
  [[ $said != *$'\n'* && $said == "$2"* ]] && return
  echo "replay, $1: '$2' expected, but it says '$said'"
  failed=$((failed + 1))
}

byte_at() { od -An -tu1 -j "$1" -N 1 crates/replay/stdin | tr -d ' '; }
# change PLACE [BIT]: a copy of the file with one bit of one byte changed, the last if not said.
change() {
  cp crates/replay/stdin "$file"
  printf "\\x$(printf %x $(($(byte_at "$1") ^ ${2:-1})))" | dd of="$file" bs=1 seek="$1" conv=notrunc status=none
}

size=$(wc -c <crates/replay/stdin)
# The first case with events, which follows loads of 24 bytes each.
case=0
at=6
until [ $(($(byte_at $((at + 22))) + $(byte_at $((at + 23))))) -gt 0 ]; do
  case=$((case + 1))
  at=$((at + 24))
done

change 27
says "another answer of the first load" "case 0, load: "
change $((at + 29))
says "another answer of an event" "case $case, event 0: "
change $((at + 24)) 128
says "an event that is no call" "case $case, event 0: "
change $((at + 23))
says "another count of events" "case "
change $((size - 5))
says "another answer of the last header" "header 38: "
change $((size - 1))
says "another size of the last header" "header 38, size: "
change 0
says "another mark" "no recorded answers"
head -c -1 crates/replay/stdin >"$file"
says "a byte cut off" "the file does not end behind its last record"
head -c 60000 crates/replay/stdin >"$file"
says "half the file" "case "
{ cat crates/replay/stdin; printf '\0'; } >"$file"
says "a byte more" "the file does not end behind its last record"
head -c 262144 /dev/zero >"$file"
says "a file that is too long" "the file is longer than the room for it"
: >"$file"
says "no file" "no recorded answers"

echo "replay: $tried changed files tried, $failed not found"
[ "$failed" -eq 0 ]
