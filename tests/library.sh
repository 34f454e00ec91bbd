#!/usr/bin/env bash
# The libraries that the repository keeps (lib/, made by lib/update.sh), one for each processor, are whole, and are byte for
# byte those that are made from the proof here, on either processor. Where they were made by another toolchain, this says so;
# what the other tests use is the one made here.
set -uo pipefail
source "$(dirname "${BASH_SOURCE[0]}")/need.bash" || exit 2
cd "$(dirname "${BASH_SOURCE[0]}")/.." || exit 2
fail() { echo "library: $1"; exit 1; }

folder=$(library_folder) || exit 1
toolchain=$(rt version) || fail "the Rattle toolchain (rt) does not say its identity"
for processor in "${processors[@]}"; do
  kept=lib/$processor-linux made=${folder%/*}/$processor-linux/libbiekkarul.a
  for file in libbiekkarul.a SHA256SUMS TOOLCHAIN; do
    [ -s "$kept/$file" ] || fail "$kept/$file is not there: run bash lib/update.sh"
  done
  [ "$(cut -d' ' -f2- "$kept/SHA256SUMS")" = ' libbiekkarul.a' ] || fail "$kept/SHA256SUMS is of something else"
  (cd "$kept" && sha256sum --check --strict --quiet SHA256SUMS) || fail "$kept/libbiekkarul.a is not the one of its SHA256SUMS"

  [ -f "$made" ] && [ ! "$made" -ef "$kept/libbiekkarul.a" ] || fail "BIEKKARUL_LIB names another than lib/make.sh made: nothing would be compared"
  if [ "$toolchain" != "$(cat "$kept/TOOLCHAIN")" ]; then
    echo "library: $kept was made by '$(cat "$kept/TOOLCHAIN")', here is '$toolchain': not compared; the one made here is tested"
  elif cmp "$kept/libbiekkarul.a" "$made"; then
    echo "library: $kept/libbiekkarul.a is what the proof gives, $(wc -c <"$made") bytes, by $toolchain"
  else
    fail "$kept/libbiekkarul.a is not what the proof gives: run bash lib/update.sh"
  fi
done
