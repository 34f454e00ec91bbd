#!/usr/bin/env bash
# include/biekkarul.h is strict C99, C11 and C++17, the library needs nothing but memset and has no data of its own, C
# programs that call every exported function get the right answers, and the example of docs/ABI.md prints what it says.
set -uo pipefail
source "$(dirname "${BASH_SOURCE[0]}")/need.bash" || exit 2
cd "$(dirname "${BASH_SOURCE[0]}")/.." || exit 2

need_c || exit 1
need nm binutils command -v nm || exit 1
need "a C++ compiler (g++)" g++ command -v g++ || exit 1
folder=$(library_folder) || exit 1
library=$(library_in "$folder") || exit 1
work=$(mktemp -d)
trap 'rm -rf "$work"' EXIT
fail() { echo "c: $1"; exit 1; }

# Of other libraries it calls memset at most, it has no data that can change, and it has the functions that the header
# declares, each once and no other. The names are those of the header, so that nm is seen to have looked.
nm "$library" >"$work/names" || fail "nm cannot read $library"
declared=$(grep -oE '^uint(16|32)_t biekkarul_[a-z_]+' include/biekkarul.h | sed 's/.* //' | sort)
[ "$(wc -l <<<"$declared")" -ge 9 ] || fail "include/biekkarul.h declares too few functions"
defined=$(awk '$2 == "T" { print $3 }' "$work/names" | sort)
[ "$defined" = "$declared" ] || fail "$library has other functions than the header declares: $defined"
foreign=$(awk '$1 == "U" && $2 != "memset" { print $2 }' "$work/names")
[ -z "$foreign" ] || fail "$library needs more than memset: $foreign"
changing=$(awk '$2 ~ /^[bBdDC]$/ { print $3 }' "$work/names")
[ -z "$changing" ] || fail "$library has data that can change: $changing"

strict=(-O1 -Wall -Wextra -Wpedantic -Wconversion -Werror -Iinclude)
standards=(c99 c11 c++17)

# in_each NAME SOURCE: the program as every standard that a caller's may be written in, as $work/NAME-STANDARD.
in_each() {
  local standard
  for standard in c99 c11; do
    gcc "${strict[@]}" -std="$standard" -o "$work/$1-$standard" "$2" "$library" || fail "$2 does not build as $standard"
  done
  g++ "${strict[@]}" -std=c++17 -x c++ -o "$work/$1-c++17" "$2" -x none "$library" || fail "$2 does not build as C++17"
}

for name in calls pages; do
  gcc -O1 -Wall -Wextra -Werror -std=c99 -pedantic -Iinclude -Itrials -o "$work/$name" "tests/c/$name.c" "$library" ||
    fail "tests/c/$name.c does not build"
  "$work/$name" || fail "an answer is another than docs/ABI.md says ($name)"
done
in_each power tests/c/power.c
for standard in "${standards[@]}"; do
  "$work/power-$standard" || fail "a function of the header's own is wrong ($standard)"
done

# block LANGUAGE: what docs/ABI.md has between the fences of that language.
block() { awk -v fence='```' -v first='```'"$1" '$0 == fence { on = 0 } on; $0 == first { on = 1 }' docs/ABI.md; }
block c >"$work/example.c" && block text >"$work/wanted" || fail "the example cannot be taken from docs/ABI.md"
[ "$(grep -c '^int main' "$work/example.c")" -eq 1 ] && [ -s "$work/wanted" ] || fail "docs/ABI.md has not one example"
in_each example "$work/example.c"
for standard in "${standards[@]}"; do
  "$work/example-$standard" | cmp - "$work/wanted" || fail "the example of docs/ABI.md prints something else ($standard)"
done
echo "the example of docs/ABI.md prints what the page says"
