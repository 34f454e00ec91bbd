#!/usr/bin/env bash
# The pictures in docs/pictures are what draw.rs makes of crates.txt and docs/pictures/maps.txt, and they are well-formed.
# After a change: bash tests/pictures.sh, then target/pictures/draw docs/pictures, then look at them.
set -uo pipefail
cd "$(dirname "${BASH_SOURCE[0]}")/.." || exit 2
source tests/need.bash

# rustc comes with Debian's cargo; it links with gcc.
need_cargo && command -v rustc >/dev/null || { echo "skipped: the pictures (no rustc on this machine)"; exit 0; }
draw=target/pictures/draw
mkdir -p "${draw%/*}"
rustc -O --edition 2021 -o "$draw" docs/pictures/draw.rs || { echo "pictures: draw.rs does not build"; exit 1; }

work=$(mktemp -d)
trap 'rm -rf "$work"' EXIT
failed=0
fail() { echo "pictures: $1"; failed=$((failed + 1)); }

"$draw" "$work" || fail "nothing can be drawn"
for name in crates maps; do
  picture=docs/pictures/$name.svg
  "$draw" --check "$picture" || fail "$picture is not well-formed"
  cmp -s "$work/$name.svg" "$picture" || fail "$picture is not what is drawn now: run $draw docs/pictures and look at it"
done

# The check sees a tag that is not closed, one closed in the wrong order, a bare & and an attribute without quotes.
damaged() { # damaged NAME SED: a picture with one damage, which the check has to refuse
  sed "$2" docs/pictures/crates.svg >"$work/$1.svg"
  cmp -s "$work/$1.svg" docs/pictures/crates.svg && fail "the damage '$1' changes nothing"
  ! "$draw" --check "$work/$1.svg" 2>/dev/null || fail "the check takes a picture with the damage '$1'"
}
damaged "not closed" 's|</svg>||'
damaged "wrong order" 's|</title>|</text>|'
damaged "bare ampersand" 's|<title>|<title>\& |'
damaged "no quotes" 's|role="img"|role=img|'
damaged "from elsewhere" 's|role="img"|href="other.svg"|'

# A crate more is another picture.
more=$work/more
mkdir -p "$more/docs/pictures" "$more/crates/bnrom/src" "$more/out"
ln -s "$PWD"/crates/* "$more/crates"
echo "pub struct Bnrom {" >"$more/crates/bnrom/src/lib.rt"
cp docs/pictures/maps.txt "$more/docs/pictures"
{ cat crates.txt; echo "bnrom: rules places"; } >"$more/crates.txt"
(cd "$more" && "$OLDPWD/$draw" out) || fail "a longer crates.txt cannot be drawn"
! cmp -s "$more/out/crates.svg" docs/pictures/crates.svg || fail "a longer crates.txt gives the same picture"

echo "tests/pictures.sh: two pictures, $failed faults"
[ "$failed" -eq 0 ]
