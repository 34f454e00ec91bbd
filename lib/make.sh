#!/usr/bin/env bash
# Proves the exported library, and makes it for both processors from that one proof: target/staticlib/x86_64-linux and
# target/staticlib/aarch64-linux. Nothing is made where the toolchain, the sources and the libraries have the contents that
# they had when it was last made; file times say nothing.
set -uo pipefail
cd "$(dirname "${BASH_SOURCE[0]}")/.." || exit 2
source lib/modules.bash || exit 2
made=target/staticlib
fail() { echo "library: $1" >&2; exit 1; }

toolchain=$(kit >/dev/null && rt version) || fail "the Rattle toolchain (rt) does not say its identity"
digest() { LC_ALL=C sort -z | xargs -0 sha256sum | sha256sum; }
stamp() { # by which toolchain, from which sources and as which bytes the libraries were made
  echo "$toolchain"
  find crates crates.txt lib/make.sh lib/modules.bash -name out -prune -o -type f -print0 | digest
  find "$made" -type f ! -name stamp -print0 | digest
}
[ "$(cat "$made/stamp" 2>/dev/null)" != "$(stamp 2>/dev/null)" ] || exit 0

echo "library: proving its sources, which takes minutes; a line for each crate"
rm -rf "$made" && mkdir -p "$made" || exit 2
own=crates/exports_c/out/libexports_c.a
rm -f "$own"
catch "$made/exports_c.bc" exports_c lib --cpu=x86-64 && [ -f "$own" ] || fail "'rt lib' in crates/exports_c does not make it"
for processor in "${processors[@]}"; do
  archived "$made/exports_c.bc" "$processor" "$made/$processor-linux/libbiekkarul.a" ||
    fail "its module does not compile for $processor"
done
# What was caught is what rt has compiled, with the words that rt has for it: they give what rt made, byte for byte.
cp "$own" "$made/libexports.a" || exit 2
cmp "$made/x86_64-linux/libbiekkarul.a" "$made/libexports.a" || fail "lib/modules.bash compiles its module otherwise than rt"
stamp >"$made/stamp"
