#!/usr/bin/env bash
# Makes the libraries that the repository keeps, one for each processor: proves the sources, copies what the proof gave, and
# writes the SHA-256 and the identity of the toolchain beside each. Run it after any change under crates/; the gate fails
# until it is done.
#
#   bash lib/update.sh
set -uo pipefail
cd "$(dirname "${BASH_SOURCE[0]}")/.." || exit 2
source lib/modules.bash || exit 2

toolchain=$(kit >/dev/null && rt version) && bash lib/make.sh ||
  { echo "lib/update.sh: nothing was made; lib/ is as it was"; exit 1; }
for processor in "${processors[@]}"; do
  folder=lib/$processor-linux
  mkdir -p "$folder" && cp "target/staticlib/$processor-linux/libbiekkarul.a" "$folder" && echo "$toolchain" >"$folder/TOOLCHAIN" &&
    (cd "$folder" && sha256sum libbiekkarul.a >SHA256SUMS) || { echo "lib/update.sh: $folder cannot be written"; exit 1; }
  echo "$folder: $(cat "$folder/SHA256SUMS") by $toolchain"
done
