# What the tests of the exported library stand on. Sourced before a test leaves the folder where it was started.
source "$(dirname "${BASH_SOURCE[0]}")/../lib/modules.bash" || exit 2

# absolute VARIABLE: a folder that it names becomes a full path; empty is as unset.
absolute() {
  case ${!1:-} in
  '') unset "$1" ;;
  /*) ;;
  *) export "$1=$PWD/${!1}" ;;
  esac
}
absolute BIEKKARUL_LIB
absolute POTATIS

# install NAME PACKAGE: from Debian, where that can be done.
install() {
  command -v apt-get >/dev/null && [ "$(id -u)" -eq 0 ] || return
  echo "$1 not found; installing the Debian package $2"
  export DEBIAN_FRONTEND=noninteractive
  { apt-get update && apt-get install -y --no-install-recommends "$2"; } >/dev/null 2>&1
}

# need NAME PACKAGE COMMAND..: the command succeeds, if need be once the package is installed.
need() {
  local name=$1 package=$2
  shift 2
  "$@" >/dev/null 2>&1 && return
  install "$name" "$package"
  "$@" >/dev/null 2>&1 || { echo "$name not found, and the Debian package $package cannot be installed"; return 1; }
}

need_c() {
  need "a C compiler (gcc)" gcc command -v gcc &&
    need "the C library's headers" libc6-dev gcc -E -include stdio.h -x c /dev/null
}

need_cargo() { need "cargo" cargo command -v cargo && need_c; }

# Whether this file is there and no source is newer. For what is made of a proof; the library goes by contents.
is_fresh() { [ -f "$1" ] && [ -z "$(find crates crates.txt -name out -prune -o -newer "$1" -print -quit)" ]; }

# library_in FOLDER: the static library there: libbiekkarul.a, as it is kept, or libexports.a, as lib/make.sh keeps rt's own.
library_in() {
  local name
  for name in libbiekkarul.a libexports.a; do
    [ ! -f "$1/$name" ] || { echo "$1/$name"; return; }
  done
  echo "$1 has neither libbiekkarul.a nor libexports.a" >&2
  return 1
}

# The folder of the static library: the one that BIEKKARUL_LIB names, taken as it is; else the one of this processor that
# lib/make.sh makes, unless it is there and was made from these very sources. Called from the repository's root.
library_folder() {
  local folder=${BIEKKARUL_LIB:-$PWD/target/staticlib/$(uname -m)-linux}
  [ -n "${BIEKKARUL_LIB:-}" ] || bash lib/make.sh >&2 || { echo "lib/make.sh does not make the library" >&2; return 1; }
  library_in "$folder" >/dev/null && echo "$folder"
}

# library_mark LIBRARY: how the tables of long runs name it: its processor, which is this one, and the first 16 digits of its
# SHA-256.
library_mark() {
  local sum
  sum=$(sha256sum <"$1") && echo "$(uname -m) ${sum:0:16}"
}

# last_run PAGE NAME COMMAND LIBRARY: says whether the last run on this processor in the page's table was on this library.
# It fails only where the page has no such table: another library is no fault, as a long run takes longer than the gate.
last_run() {
  local library='(x86_64|aarch64) ([0-9a-f]{16}|not kept)' mark rows row run
  mark=$(library_mark "$4") || return
  # date, minutes and library of each run
  rows=$(sed -nE "s/^\| (20[0-9-]+)[^|]* \|[^|]*\| ([0-9]+) \|.* \| $library \|.*/\1, \2 min:\3 \4/p" "$1")
  [ -n "$rows" ] || { echo "$1 has no run with its library"; return 1; }
  row=$(grep -F ":$(uname -m) " <<<"$rows" | tail -n 1)
  run="the last long run of $2 (${row%%:*})"
  case ${row#*:} in
  "$mark") echo "$run was on this library, $mark" ;;
  '') echo "$1 has no long run of $2 on $(uname -m): run $3" ;;
  *'not kept') echo "$run was on another library, which was not kept: run $3 again" ;;
  *) echo "$run was on another library (${row#*:}), this one is $mark: run $3 again" ;;
  esac
}

# make_program NAME: rt proves and builds it, unless it has done so from these sources. It stays as crates/NAME/out/NAME, and
# rt runs it once, on nothing.
make_program() {
  is_fresh "crates/$1/out/$1" || { (cd "crates/$1" && rt run </dev/null >/dev/null) && touch "crates/$1/out/$1"; }
}

# need_program NAME: the same, told where it fails.
need_program() { make_program "$1" 2>/dev/null || { echo "rt run in crates/$1 does not make the program: see what it says"; return 1; }; }

# program NAME: runs it.
program() { "crates/$1/out/$1"; }
