#!/usr/bin/env bash
# Writes the table "Size and effort" of docs/BENCHMARKS.md: the lines of each crate, and what its check takes.
# Every crate is proved anew, one at a time, over crates that are proved already. rt takes what checks kept in other copies of
# the repository on this machine: have none.
set -uo pipefail
source "$(dirname "${BASH_SOURCE[0]}")/../tests/need.bash" || exit 2
cd "$(dirname "${BASH_SOURCE[0]}")/.." || exit 2
command -v rt >/dev/null || { echo "the Rattle toolchain (rt) is not on this machine's PATH"; exit 2; }
need "GNU time" time test -x /usr/bin/time || exit 1
page=docs/BENCHMARKS.md
grep -q '<!-- size: begin -->' "$page" && grep -q '<!-- size: end -->' "$page" || { echo "$page has no marks for the table"; exit 1; }

# lines PATTERN FOLDER..: lines that say something, in the files of that name: not blank, no comment, no import.
lines() {
  local pattern=$1
  shift
  find "$@" -name "$pattern" -type f -exec cat {} + 2>/dev/null |
    grep -cvE '^[[:space:]]*($|//|--|use |ghost use |unfoldable pub use |(pub )?mod )'
}

work=$(mktemp -d)
trap 'rm -rf "$work"' EXIT
failed() { # failed WHAT: with the end of its log
  tail -n 5 "$work/log" >&2
  echo "$1 fails" >&2
  exit 1
}
echo "proving what is not proved yet" >&2
rt all check >"$work/log" 2>&1 || failed "rt all check"
code=0 definitions=0 proof=0 seconds=0
while IFS=: read -r name _; do
  name=${name%% *} # a word after the name says what is made of the crate
  case $name in '' | '#'*) continue ;; esac
  rm -rf "crates/$name/out"
  # rt runs the crate's check as a process of its own, so the greatest process is the check
  (cd "crates/$name" && /usr/bin/time -f '%U %S %M' -o "$work/time" rt check </dev/null >"$work/log" 2>&1) || failed "rt check in crates/$name"
  read -r user system memory < <(tail -n 1 "$work/time")
  c=$(lines '*.rt' "crates/$name/src") d=$(lines '*.antt' "crates/$name/specs") p=$(lines '*.antt' "crates/$name/proofs")
  spent=$(awk -v u="$user" -v s="$system" 'BEGIN { printf "%.0f", u + s }')
  echo "| \`$name\` | $c | $d | $p | $spent | $((memory / 1024)) |"
  echo "$name: $spent s, $((memory / 1024)) MB" >&2
  code=$((code + c)) definitions=$((definitions + d)) proof=$((proof + p)) seconds=$((seconds + spent))
done <crates.txt >"$work/rows"
{
  echo "| crate | code | definitions | proof | s | MB |"
  echo "|---|---|---|---|---|---|"
  cat "$work/rows"
  echo "| all | $code | $definitions | $proof | $seconds | |"
} >"$work/table"
sed -i -e "/<!-- size: begin -->/,/<!-- size: end -->/{/<!-- size: begin -->/r $work/table" -e '/<!-- size: /!d}' "$page" || exit 1
echo "$page: $code lines of code, $definitions of definitions, $proof of proof"
