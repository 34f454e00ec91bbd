#!/usr/bin/env bash
# House mode of the exported library, by its calls, through the wrapper and through pages, against the original Rust: tests
# of the harness, the recorded sample made anew, then the gate's run, which has to compare enough.
# The Rust is taken from the folder named in POTATIS, else from ../shared/docs/src; without either this is skipped.
# The library is the one of library_folder.
set -uo pipefail
source "$(dirname "${BASH_SOURCE[0]}")/need.bash" || exit 2
cd "$(dirname "${BASH_SOURCE[0]}")/.." || exit 2

fail() {
  echo "differential: $1"
  exit 1
}

has_the_rust() { [ -f "$1/nes/src/cartridge.rs" ]; }

if [ -n "${POTATIS:-}" ]; then
  has_the_rust "$POTATIS" || fail "POTATIS names $POTATIS, which has no nes/src/cartridge.rs"
elif has_the_rust ../shared/docs/src; then
  POTATIS=$PWD/../shared/docs/src
else
  echo "skipped: the differential run (the original Rust is not in ../shared/docs/src); the recorded answers still run"
  exit 0
fi
export POTATIS
need_cargo || exit 1
BIEKKARUL_LIB=$(library_folder) || exit 1
export BIEKKARUL_LIB

log=$(mktemp)
sample=$(mktemp)
trap 'rm -f "$log" "$sample"' EXIT
cd differential || exit 2
if cargo fmt --version >/dev/null 2>&1; then
  cargo fmt --all --check >"$log" 2>&1 || { cat "$log"; fail "cargo fmt would change it"; }
fi
cargo build --release --offline --quiet >"$log" 2>&1 || { cat "$log"; fail "it does not build"; }
[ ! -s "$log" ] || { cat "$log"; fail "the build warns"; }
cargo test --release --offline --quiet >"$log" 2>&1 || { cat "$log"; fail "the harness fails its own tests"; }
target/release/record "$sample" >"$log" 2>&1 || { cat "$log"; fail "the sample cannot be recorded"; }
cmp -s "$sample" ../crates/replay/stdin || fail "crates/replay/stdin is not what record makes"
started=$SECONDS
target/release/differential --trace target/failure.trace >"$log" 2>&1 ||
  { cat "$log"; fail "house mode and the Rust part, or too little is compared"; }
seconds=$((SECONDS - started))
echo "differential: $(tail -n 1 "$log")"
echo "differential: the run took $seconds s"
