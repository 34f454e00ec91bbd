# What rt compiles, and for which processors. rt gives the module of what it has proved to its kit's compiler, LLVM's clang,
# and asks for x86-64 code. Here that module is caught, and the same compiler makes code of it for either processor.

processors=(x86_64 aarch64) # as uname and cargo call them

# The kit's folder, and in it the folder of the tools that run on this machine.
kit() {
  local rt
  rt=$(command -v rt) || { echo "the Rattle toolchain (rt) is not on this machine's PATH" >&2; return 1; }
  (cd "$(dirname "$(readlink -f "$rt")")/.." && pwd)
}
tools() {
  local kit
  kit=$(kit) && echo "$kit/toolchain"
}

# links_but NAME FROM TO: all that FROM holds, but for NAME, by links in TO.
links_but() {
  local file
  mkdir -p "$3"
  for file in "$2"/*; do [ "${file##*/}" = "$1" ] || ln -s "$file" "$3"; done
}

# catching_kit FOLDER: the kit once more, by links, but for its clang: that one keeps the module that it is given. rt finds
# its kit by where its own files are, so these are copies.
catching_kit() {
  local kit file
  kit=$(kit) && [ -x "$kit/toolchain/bin/clang" ] ||
    { echo "the toolchain's clang is not where lib/modules.bash looks for it" >&2; return 1; }
  links_but toolchain "$kit" "$1" &&
    links_but bin "$kit/toolchain" "$1/toolchain" &&
    links_but clang "$kit/toolchain/bin" "$1/toolchain/bin" && rm "$1/bin" && mkdir "$1/bin" || return
  for file in "$kit"/bin/*; do
    case ${file##*/} in rt | *.py) cp "$file" "$1/bin" ;; *) ln -s "$file" "$1/bin" ;; esac
  done
  cat >"$1/toolchain/bin/clang" <<END
#!/usr/bin/env bash
for word in "\$@"; do case \$word in *.bc) cp "\$word" "$1/caught" ;; esac; done
exec "$kit/toolchain/bin/clang" "\$@"
END
  chmod +x "$1/toolchain/bin/clang" && chmod 755 "$1" # rt runs a program as nobody, who has to get at the kit
}

# catch MODULE CRATE WORDS..: the module that rt has compiled, called with these words in the crate's folder.
catch() {
  local module=$1 crate=$2 own status
  shift 2
  own=$(mktemp -d) || return
  catching_kit "$own" && (cd "crates/$crate" && "$own/bin/rt" "$@") && mv "$own/caught" "$module"
  status=$?
  rm -rf "$own"
  return "$status"
}

# clang_for PROCESSOR WORDS..: the kit's clang on a module.
clang_for() { "$(tools)/bin/clang" --target="$1-unknown-linux-gnu" --no-default-config -x ir "${@:2}"; }

# text_of MODULE PROCESSOR: the module as text, which names no kind of x86-64 processor.
text_of() {
  clang_for "$2" -Wno-override-module -S -emit-llvm -O0 -Xclang -disable-llvm-passes -o - "$1" |
    sed 's/ "target-cpu"="x86-64[^"]*"//'
}

# The words with which rt has a module compiled, and those that only an x86-64 compiler takes. lib/make.sh sees that they are.
as_rt=(-c -ffunction-sections -fdata-sections -mllvm -trap-unreachable -mllvm -no-trap-after-noreturn -mllvm -disable-machine-licm
  -mllvm -disable-postra-machine-licm -mllvm -sink-common-insts=false -fPIC -O3)
as_rt_x86_64=(-march=x86-64 -mllvm -no-x86-call-frame-opt)

# compiled MODULE PROCESSOR OBJECT
compiled() {
  local words=("${as_rt[@]}")
  [ "$2" != x86_64 ] || words+=("${as_rt_x86_64[@]}")
  text_of "$1" "$2" | clang_for "$2" "${words[@]}" -o "$3" -
}

# archived MODULE PROCESSOR ARCHIVE: its one member is called after the module; no time and no owner is in it.
archived() {
  local object
  object=${3%/*}/$(basename "$1" .bc).o
  mkdir -p "${3%/*}" && rm -f "$3" && compiled "$1" "$2" "$object" &&
    "$(tools)/bin/llvm-ar" rcsD --format=gnu "$3" "$object"
}
