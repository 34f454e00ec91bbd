#!/usr/bin/env bash
# rust/: it builds without warnings, its tests and examples hold, the sample trace gives its text, and bad
# input gets a message and a status.
set -uo pipefail
source "$(dirname "${BASH_SOURCE[0]}")/need.bash" || exit 2
cd "$(dirname "${BASH_SOURCE[0]}")/.." || exit 2

need_cargo || exit 1
need ar binutils command -v ar && need script bsdutils command -v script || exit 1
# The library of library_folder: in the gate the one that it made.
BIEKKARUL_LIB=$(library_folder) || exit 1
library=$(library_in "$BIEKKARUL_LIB") || exit 1
export BIEKKARUL_LIB
unset BIEKKARUL_PROVE DOCS_RS
work=$(mktemp -d)
trap 'rm -rf "$work"' EXIT
export RUSTFLAGS="-D warnings" RUSTDOCFLAGS="-D warnings"
manifest=rust/Cargo.toml
here=$(uname -m)
kept=lib/$here-linux/libbiekkarul.a
version=$(sed -n 's/^#define BIEKKARUL_VERSION \([0-9]*\).*/\1/p' include/biekkarul.h)
kit >/dev/null || exit 1
sample=rust/examples/worked_case
passed=0
failed=0

step() { # step NAME COMMAND..: its output is shown only where it fails
  local name=$1
  shift
  if "$@" >"$work/log" 2>&1; then
    passed=$((passed + 1))
  else
    cat "$work/log"
    echo "wrapper: $name failed"
    failed=$((failed + 1))
  fi
}

layout() { cargo fmt --manifest-path "$manifest" --check; }

only_ffi_is_unsafe() { [ "$(grep -lw unsafe -r rust/src rust/examples rust/build rust/build.rs)" = rust/src/ffi.rs ]; }

replay() { cargo run --quiet --offline --manifest-path "$manifest" --example replay -- "$@"; }

plays_the_sample() { replay "$sample.trace" | diff - "$sample.txt"; }

# refuses STATUS STDOUT MESSAGE ARGUMENT..: replay's status, its text, and a part of its message
refuses() {
  local status=$1 text=$2 message=$3
  shift 3
  replay "$@" >"$work/out" 2>"$work/err"
  local got=$?
  echo "status $got"
  cat "$work/out" "$work/err"
  [ "$got" -eq "$status" ] && [ "$(cat "$work/out")" = "$text" ] && grep -qF -- "$message" "$work/err"
}

plays_standard_input() { replay - <"$sample.trace" | diff - "$sample.txt"; }

cannot_write() {
  replay "$sample.trace" >/dev/full 2>"$work/err"
  [ $? -eq 2 ] && grep -qF "cannot be written" "$work/err"
}

example() { # example NAME ARGUMENT..
  local name=$1
  shift
  cargo run --quiet --offline --manifest-path "$manifest" --example "$name" -- "$@"
}

# says STATUS LINE NAME ARGUMENT..: an example's status, and a line of what it says on either output
says() {
  local status=$1 line=$2
  shift 2
  example "$@" >"$work/out" 2>&1
  local got=$?
  echo "status $got"
  cat "$work/out"
  [ "$got" -eq "$status" ] && grep -qxF -- "$line" "$work/out"
}

# says_nothing WORDS NAME ARGUMENT..: an example succeeds, and these words are not in what it says
says_nothing() {
  local words=$1
  shift
  example "$@" >"$work/out" 2>&1 && cat "$work/out" && ! grep -qF -- "$words" "$work/out"
}

image() { # image PRG CHR BYTE6 LENGTH: zeros behind a header
  printf "NES\\x1a\\x$1\\x$2\\x$3"
  head -c $(($4 - 7)) /dev/zero
}

# inspected MODE VERDICT STATUS PRG CHR BYTE6 LENGTH: the verdict in that mode on such an image
inspected() {
  image "${@:4}" >"$work/game.nes"
  says "$3" "$1 mode: $2" inspect "$work/game.nes"
}

# traced LINE EVENTS: a line about a trace of MMC3 with these three events, as hex
traced() {
  { printf '\x01\0\0\x40\x10\0'; image 01 00 40 16400; printf '\0\x03'; printf "\\x${2// /\\x}"; } >"$work/traced"
  says 0 "$1" inspect "$work/traced"
}

with_bytes() { # with_bytes PLACE=HEX..: standard input with other bytes at these places
  local byte
  cat >"$work/changed"
  for byte; do
    printf "\\x${byte#*=}" | dd of="$work/changed" bs=1 seek="${byte%=*}" conv=notrunc status=none
  done
  cat "$work/changed"
}

summed() { # the snapshot on standard input with the check sum that fits its bytes: 64-bit FNV-1a
  local byte place sum=$((0xCBF29CE484222325))
  head -c 16444 >"$work/unsummed"
  for byte in $(od -An -v -tu1 "$work/unsummed"); do sum=$(((sum ^ byte) * 0x100000001B3)); done
  cat "$work/unsummed"
  for place in {0..7}; do printf "\\x$(printf %02x $((sum >> 8 * place & 255)))"; done
}

# locked LINE MARKS [BYTE2]: a line about the sample's board as one of board mode, whose screens are back at the header's,
# with these marks of PRG RAM, and with another byte 2 of its state where one is said
locked() {
  with_bytes 9=01 10=56 "22=${3:-55}" "55=$2" <"$sample.snapshot" | summed >"$work/locked"
  says 0 "$1" inspect "$work/locked"
}

marked() { # marked PRG CHR BYTE6 BYTE8 BYTE9 BYTE10 BYTE11 LENGTH: the same, marked NES 2.0
  printf "NES\\x1a\\x$1\\x$2\\x$3\\x08\\x$4\\x$5\\x$6\\x$7"
  head -c $(($8 - 12)) /dev/zero
}

# inspected_marked LINE STATUS PRG CHR BYTE6 BYTE8 BYTE9 BYTE10 BYTE11 LENGTH: a line about such an image
inspected_marked() {
  marked "${@:3}" >"$work/game.nes"
  says "$2" "$1" inspect "$work/game.nes"
}

# A complaint about each of the 64 runs, of which some are about an answer
finds_every_fault() {
  says 1 "shop: run 1: event 2048 (read BB4E) was answered 'R 9C' and is now answered 'R 44'" shop --fault &&
    [ "$(grep -c '^shop: run ' "$work/out")" -eq 64 ]
}

without_std() { cargo "$1" --offline --manifest-path "$manifest" --no-default-features "${@:2}"; }

# The program tracerun prints the same text.
as_tracerun() { diff <(program tracerun <"$1") <(replay "$1" 2>/dev/null); }

# The build in a folder of its own, whose environment is said before it.
build() { cargo build --offline --manifest-path "$manifest" --target-dir "$work/target" "$@"; }

build_with_kept() { BIEKKARUL_LIB='' build; }

# What that build has linked is this file.
links() { # links FILE COMMAND..
  local file=$1
  shift
  "$@" && cmp "$file" "$work"/target/debug/build/biekkarul-*/out/libbiekkarul.a
}

# With a relative name, which counts from the folder where cargo is started.
build_with_relative() {
  local here=$PWD
  (cd "$BIEKKARUL_LIB/.." && BIEKKARUL_LIB=${BIEKKARUL_LIB##*/} cargo build --offline --manifest-path "$here/$manifest" \
    --target-dir "$work/target")
}

# fails_with MESSAGE COMMAND..: it fails, and says this.
fails_with() {
  local message=$1
  shift
  if "$@" 2>"$work/err"; then
    echo "it does not fail"
    return 1
  fi
  cat "$work/err"
  grep -qF -- "$message" "$work/err"
}

refuses_library() { fails_with "$1" env BIEKKARUL_LIB="$2" "${@:3}" cargo build --offline --manifest-path "$manifest" --target-dir "$work/target"; }

# Libraries that do not fit, each in a folder of its own.
archive_of() { # archive_of NAME C-SOURCE
  mkdir -p "$work/$1"
  gcc -O1 -fcf-protection=none -x c -c -o "$work/$1/object.o" - <<<"$2" && ar rc "$work/$1/libbiekkarul.a" "$work/$1/object.o"
}
make_misfits() {
  mkdir -p "$work"/{without,empty_archive,empty_file,text,cut,no_code} &&
    printf '!<arch>\n' >"$work/empty_archive/libbiekkarul.a" &&
    : >"$work/empty_file/libbiekkarul.a" &&
    cp README.md "$work/text/libbiekkarul.a" &&
    head -c 9000 "$library" >"$work/cut/libbiekkarul.a" &&
    cp README.md "$work/no_code/text.o" && ar rc "$work/no_code/libbiekkarul.a" "$work/no_code/text.o" &&
    archive_of newer "unsigned biekkarul_version(void) { return $((version + 1)); }" &&
    archive_of older 'unsigned biekkarul_versions(void) { return 1; }' &&
    archive_of computed 'unsigned biekkarul_version(void) { static volatile unsigned version = 1; return version; }'
}

# The crate in a repository of its own, with a stand-in for rt that notes each run. It compiles a module of its own, as rt
# does, by the compiler of the kit that it is given.
repository=$work/repository
make_repository() {
  mkdir -p "$repository/crates/exports_c" "$repository/rust" "$repository/${kept%/*}" "$work/bin"
  ln -s "$(tools)" "$work/toolchain"
  touch "$repository/crates.txt"
  echo one >"$repository/crates/source"
  cp "$library" "$repository/$kept"
  cp lib/make.sh lib/modules.bash "$repository/lib"
  cp -r rust/src rust/build rust/build.rs rust/Cargo.toml rust/Cargo.lock "$repository/rust"
  : >"$work/runs"
  echo "define i32 @biekkarul_version() { ret i32 $version }" >"$work/exports_c.bc"
  cat >"$work/bin/rt" <<END
#!/usr/bin/env bash
[ "\$*" != version ] || { echo "a stand-in"; exit; }
echo "\$*" >>"$work/runs"
echo "rt: it says this" >&2
PATH=\${0%/*}:\$PATH
[ ! -e "$work/broken" ] && source ../../lib/modules.bash && archived "$work/exports_c.bc" x86_64 out/libexports_c.a || exit
[ ! -e "$work/otherwise" ] || echo >>out/libexports_c.a
END
  chmod +x "$work/bin/rt"
}

build_there() { # an empty BIEKKARUL_LIB is as none
  BIEKKARUL_LIB='' PATH="$work/bin:$PATH" cargo build --offline \
    --manifest-path "$repository/rust/Cargo.toml" --target-dir "$work/there" "$@"
}
prove_there() { BIEKKARUL_PROVE=1 build_there "$@"; }

runs_rt() { # runs_rt COUNT COMMAND..: the command succeeds; rt has then made the library so often in all
  local count=$1
  shift
  "$@" && [ "$(grep -cxF -- "lib --cpu=x86-64" "$work/runs")" -eq "$count" ]
}

# On a terminal, a line of rt comes through while cargo builds. `script` runs its command by $SHELL; another
# shell than bash would not pass the functions on.
shows_rt() {
  export -f prove_there build_there
  export work repository
  SHELL=$BASH script --quiet --return --command prove_there /dev/null </dev/null >"$work/terminal"
  local got=$?
  cat "$work/terminal"
  [ "$got" -eq 0 ] && grep -q "biekkarul: it says this" "$work/terminal"
}

tests_make_it() { (cd "$repository" && BIEKKARUL_LIB='' PATH="$work/bin:$PATH" library_folder); }

# Another content with an old time, and the same content with a new one.
change_a_source() { echo "$RANDOM $RANDOM" >"$repository/crates/source" && touch -d "1 year ago" "$repository/crates/source"; }
touch_a_source() { touch -d "1 minute" "$repository/crates/source"; }
another_library() { echo another >"$repository/target/staticlib/$here-linux/libbiekkarul.a"; }

docs_there() {
  BIEKKARUL_LIB='' DOCS_RS=1 cargo doc --quiet --offline --manifest-path "$repository/rust/Cargo.toml" --target-dir "$work/docs"
}

if command -v rustfmt >/dev/null; then
  step "layout (cargo fmt --check)" layout
else
  echo "wrapper: there is no rustfmt here, so the layout is not looked at"
fi
step "unsafe stands in ffi.rs only" only_ffi_is_unsafe
step "cargo build" cargo build --offline --manifest-path "$manifest" --all-targets
step "cargo test" cargo test --offline --manifest-path "$manifest"
step "cargo doc" cargo doc --quiet --offline --manifest-path "$manifest" --target-dir "$work/target"
step "without std: cargo build" without_std build
step "without std: cargo test" without_std test --lib --tests
step "the sample trace" plays_the_sample
step "the sample trace from standard input" plays_standard_input
step "a text that cannot be written" cannot_write

: >"$work/empty"
head -c 1000 "$sample.trace" >"$work/truncated"
head -c -1 "$sample.trace" >"$work/one_short"
{ cat "$sample.trace"; printf '\0'; } >"$work/one_long"
head -c 50000 /dev/zero >"$work/zeros"
{ head -c 6 "$sample.trace"; printf X; tail -c +8 "$sample.trace"; } >"$work/no_magic"
image 01 00 00 16400 >"$work/game"
step "replay --help" says 0 "usage: replay FILE" replay --help
step "an option that is none" refuses 2 "" "there is no option '--mode'" --mode
step "no argument" refuses 2 "" "usage: replay FILE"
step "two arguments" refuses 2 "" "usage: replay FILE" "$sample.trace" "$sample.trace"
step "a missing file" refuses 2 "" "cannot be read" "$work/missing"
step "a directory" refuses 2 "" "is a directory" "$work"
step "an empty file" refuses 1 "refused 15" "is empty" "$work/empty"
step "a truncated trace" \
  refuses 1 "refused 15" "the image has 24592 bytes, but only 994 bytes are left" "$work/truncated"
step "a trace short of one byte" \
  refuses 1 "refused 15" "event 15 has 4 bytes, but only 3 bytes are left" "$work/one_short"
step "a byte left over" refuses 1 "refused 15" "1 byte after the last event" "$work/one_long"
step "a file that is no trace" refuses 1 "refused 15" "the version is 0" "$work/zeros"
step "a refused load" refuses 1 "refused 3" "ImageNotInes" "$work/no_magic"
step "an image in place of a trace" refuses 1 "refused 15" "is an iNES image" "$work/game"

step "inspect --help" says 0 "usage: inspect FILE" inspect --help
step "inspect: house mode takes it" inspected house accepted 0 01 00 00 16400
step "inspect: board mode takes it" inspected board accepted 0 01 00 00 16400
step "inspect: too few bytes" \
  inspected house "refused 3 (ImageNotInes): 16399 bytes, but an image has at least 16400" 1 01 00 00 16399
step "inspect: no magic" says 1 \
  "house mode: refused 3 (ImageNotInes): bytes 0-3 are 00 00 00 00, but an iNES image begins with 4E 45 53 1A" \
  inspect "$work/zeros"
step "inspect: another mapper" inspected house \
  "refused 4 (MapperNotTaken): mapper 5, but only 0 NROM, 1 MMC1, 2 UxROM, 3 CNROM and 4 MMC3 are taken" \
  1 01 00 50 16400
step "inspect: a trainer" inspected board \
  "refused 5 (TrainerOrFourScreen): byte 6 is 04: bit 2 asks for a trainer, and neither is taken" \
  1 01 00 04 16400
step "inspect: four screens" inspected board \
  "refused 5 (TrainerOrFourScreen): byte 6 is 49: bit 3 asks for four screens, and neither is taken" \
  1 01 00 49 16400
step "inspect: three PRG blocks on NROM" \
  inspected house "refused 6 (PrgCountNotTaken): PRG count 3, but NROM has 1 or 2" 1 03 00 00 50000
step "inspect: no PRG block on MMC1" \
  inspected board "refused 6 (PrgCountNotTaken): PRG count 0, but MMC1 has at least 1" 1 00 01 10 50000
step "inspect: an image shorter than its header says" inspected house \
  "refused 7 (ImageTooShort): 40975 bytes, but PRG count 2 and CHR count 1 need 16 + 2 x 16384 + 1 x 8192 = 40976" \
  1 02 01 00 40975
step "inspect: counts that are no powers of two" inspected board \
  "refused 8 (CountNoPowerOfTwo): PRG count 3 and CHR count 5, but board mode takes 1, 2, 4, 8, 16, 32, 64 or 128" \
  0 03 05 20 90128
step "inspect: the same in house mode" inspected house accepted 0 03 05 20 90128
step "inspect: an NES 2.0 image" \
  inspected_marked "'$work/game.nes' is an NES 2.0 image of 32784 bytes" 0 02 00 10 00 00 00 07 32784
step "inspect: an NES 2.0 image, house mode's reading" \
  inspected_marked "  as house mode reads it:" 0 02 00 10 00 00 00 07 32784
step "inspect: NES 2.0 without PRG RAM" inspected_marked \
  "board mode: accepted, without PRG RAM: 6000-7FFF reads 0 and ignores writes" 0 02 00 10 00 00 00 07 32784
step "inspect: its shifts of PRG RAM" \
  inspected_marked "    PRG RAM       none (shift 0; of battery RAM 0)" 0 02 00 10 00 00 00 07 32784
step "inspect: NES 2.0 with PRG RAM" \
  inspected_marked "board mode: accepted, with PRG RAM" 0 02 00 40 00 00 70 07 32784
step "inspect: NES 2.0 with PRG RAM that NROM does not show" \
  inspected_marked "board mode: accepted, with PRG RAM, which this board does not show" 0 02 00 00 00 00 07 07 32784
step "inspect: NES 2.0 in house mode" inspected_marked "house mode: accepted" 0 02 00 10 1F FF 77 77 32784
step "inspect: a longer mapper number" inspected_marked \
  "board mode: refused 4 (MapperNotTaken): mapper 257, but only 0 NROM, 1 MMC1, 2 UxROM, 3 CNROM and 4 MMC3 are taken" \
  0 02 00 10 01 00 00 07 32784
step "inspect: a submapper" \
  inspected_marked "board mode: refused 16 (Nes2NotTaken): byte 8 is 50: submapper 5, but only 0 is taken" 0 02 00 10 50 00 00 07 32784
step "inspect: the submapper's line" inspected_marked "    submapper     5" 0 02 00 10 50 00 00 07 32784
step "inspect: CHR RAM that is said nowhere" inspected_marked \
  "board mode: refused 16 (Nes2NotTaken): the CHR count is 0, which means CHR RAM, but byte 11 is 00 and says none" \
  0 02 00 10 00 00 00 00 32784
step "inspect: all that NES 2.0 has and no load takes" inspected_marked \
  "board mode: refused 16 (Nes2NotTaken): byte 8 is 10: submapper 1, but only 0 is taken; \
byte 9 is FF: the PRG count is in exponent form, which is not taken; \
byte 9 is FF: the CHR count is in exponent form, which is not taken; \
byte 10 is 77, but PRG RAM is taken with 00, 07 or 70 only; \
byte 11 is 08, but CHR RAM is taken with 00, 07 or 70 only; \
the CHR count is not 0, but byte 11 is 08 and says CHR RAM" 0 02 00 10 10 FF 77 08 32784
step "inspect: a longer count" inspected_marked "    PRG ROM       257 blocks of 16384 bytes" 0 01 00 10 00 01 00 07 16400
step "inspect: a longer count and too few bytes" inspected_marked \
  "board mode: refused 7 (ImageTooShort): 16400 bytes, but PRG count 257 and CHR count 0 need 16 + 257 x 16384 + 0 x 8192 = 4210704" \
  0 01 00 10 00 01 00 07 16400
step "inspect: a longer count that is no power of two" inspected_marked \
  "board mode: refused 8 (CountNoPowerOfTwo): PRG count 257, but board mode takes 1, 2, 4 and so on up to 2048" \
  0 01 00 10 00 01 00 07 4210704
step "inspect: a longer count that is taken" inspected_marked "board mode: accepted, with PRG RAM" 0 00 00 10 00 01 07 07 4194320
step "inspect: where the modes part" says 0 "the modes part at event 6 (write A000=00):" inspect "$sample.trace"
# A reload of latch 0, IRQ enabled, and a clock: only board mode answers yes. The same with latch 1 and no reload: only house.
board_yes="01 C0 01 00 01 E0 01 00 02 00 00 00"
house_yes="01 C0 00 01 01 E0 01 00 02 00 00 00"
step "inspect: a clock without an IRQ" traced "  house  C 0     no IRQ" "$board_yes"
step "inspect: a clock after which the line is up" traced "  board  C 1     the IRQ line is up" "$board_yes"
step "inspect: a clock with an IRQ" traced "  house  C 1     an IRQ" "$house_yes"
step "inspect: a clock after which the line is low" traced "  board  C 0     the IRQ line is low" "$house_yes"
# A byte that is written before the lock, and one that is written after it.
step "inspect: a byte of disabled PRG RAM" traced "  board  R 00    the byte 00; PRG RAM is disabled" \
  "01 60 00 2A 01 A0 01 00 00 60 00 00"
step "inspect: the same in house mode" traced "  house  R 2A    the byte 2A" "01 60 00 2A 01 A0 01 00 00 60 00 00"
step "inspect: a byte that PRG RAM did not take" traced "  board  R 00    the byte 00; PRG RAM is enabled, writes denied" \
  "01 BF FF C0 01 7F FF 2A 00 7F FF 00"
step "inspect: PRG RAM that is enabled again" traced "both modes give the same answers to 3 events" \
  "01 BF FF 40 01 BF FF 80 00 60 00 00"
step "inspect: a truncated trace" says 1 \
  "'$work/truncated' begins as a trace and is malformed at byte 6: the image has 24592 bytes, but only 994 bytes are left" \
  inspect "$work/truncated"
{ head -c 16000 "$sample.snapshot"; printf X; tail -c +16002 "$sample.snapshot"; } >"$work/damaged"
step "inspect: a snapshot" says 0 "'$sample.snapshot' is a snapshot in house mode" inspect "$sample.snapshot"
step "inspect: a snapshot's registers" says 0 \
  "  registers     Mmc3(Mmc3Registers { banks: [0, 0, 8, 0, 0, 0, 0, 0], select: 2, prg_mode: 0, chr_mode: 0, latch: 1, \
counter: 1, irq_enabled: true, reload: false, irq_line: false, ram_enabled: true, ram_writes_denied: false })" \
  inspect "$sample.snapshot"
step "inspect: a snapshot in house mode says nothing of locks" says_nothing "PRG RAM" inspect "$sample.snapshot"
step "inspect: PRG RAM that is not locked" locked "  PRG RAM       enabled, writes taken" 01
step "inspect: PRG RAM that takes no writes" locked "  PRG RAM       enabled, writes denied" 03
step "inspect: PRG RAM that is disabled" locked "  PRG RAM       disabled" 00
step "inspect: PRG RAM with both marks" locked "  PRG RAM       disabled, writes denied" 02
step "inspect: marks of PRG RAM that is not there" locked "  PRG RAM       none" 03 17 # marked NES 2.0, without PRG RAM
step "inspect: a damaged snapshot" says 1 \
  "'$work/damaged' begins as a snapshot, and the snapshot is damaged: its check sum does not fit its bytes" \
  inspect "$work/damaged"
step "inspect: a missing file" says 2 \
  "inspect: '$work/missing' cannot be read: No such file or directory (os error 2)" inspect "$work/missing"

step "the shop's runs are taken up again" says 0 \
  "64 snapshots of 16452 bytes, taken up again in new boards and in place: the same answers" shop
step "the shop finds every board that was changed" finds_every_fault
step "the shop knows no other option" says 2 "shop: usage: shop [--fault]" shop --faults

step "tracerun is there" need_program tracerun
for file in "$sample.trace" "$work"/{empty,truncated,one_short,one_long,zeros,no_magic,game}; do
  step "tracerun's text of ${file##*/}" as_tracerun "$file"
done

step "the crate carries the NOTICE" cmp NOTICE rust/NOTICE
step "a library named by BIEKKARUL_LIB" links "$library" build
step "a relative folder" links "$library" build_with_relative
step "the library that the repository keeps" links "$kept" build_with_kept

make_misfits || { echo "wrapper: the libraries that do not fit cannot be made"; exit 1; }
step "a folder without the library" refuses_library "has neither libbiekkarul.a nor libexports.a" "$work/without"
step "a file" refuses_library "is a file" "$library"
step "a folder that is not there" refuses_library "is not there" "$work/nowhere"
step "an empty archive" refuses_library "is an empty archive" "$work/empty_archive"
step "an empty file" refuses_library "is no archive" "$work/empty_file"
step "a text" refuses_library "is no archive" "$work/text"
step "an archive that is cut off" refuses_library "is an archive that is cut off" "$work/cut"
step "an archive of a text" refuses_library "something else than machine code for x86_64 or aarch64 linux" "$work/no_code"
for other in "${processors[@]}"; do
  [ "$other" != "$here" ] || continue
  step "a library for $other" refuses_library "is for $other, but this build is for $here" "$PWD/lib/$other-linux"
done
step "a library of another version" refuses_library "is of version $((version + 1)), but this wrapper is for version $version" "$work/newer"
step "a library that has no version" refuses_library "has no function biekkarul_version" "$work/older"
step "a version that is no plain number" refuses_library "does not say its version as a plain number" "$work/computed"
step "a library and a proof" refuses_library "set one of them" "$BIEKKARUL_LIB" BIEKKARUL_PROVE=1
step "a proof that is neither 0 nor 1" refuses_library "BIEKKARUL_PROVE is 'yes'" '' BIEKKARUL_PROVE=yes

make_repository
step "without BIEKKARUL_PROVE nothing is proved" runs_rt 0 build_there
step "BIEKKARUL_PROVE=1 makes the library" runs_rt 1 prove_there
step "it is not made again for another profile" runs_rt 1 prove_there --release
touch_a_source
step "nor for a source that is newer but the same" runs_rt 1 prove_there
change_a_source
step "it is made again for a source that is older but another" runs_rt 2 prove_there
another_library
step "it is made again where it is another than was made" runs_rt 3 prove_there
change_a_source
step "what rt says is shown on a terminal" runs_rt 4 shows_rt
step "the tests take the same one" runs_rt 4 tests_make_it
touch_a_source
step "the tests take it again from the same sources" runs_rt 4 tests_make_it
change_a_source
step "the tests make it again from others" runs_rt 5 tests_make_it
another_library
step "the tests make it again where it is another than was made" runs_rt 6 tests_make_it
change_a_source
touch "$work/otherwise"
step "an rt that compiles otherwise" fails_with "compiles its module otherwise than rt" prove_there
touch "$work/broken"
step "a failing rt" fails_with "'rt lib' in crates/exports_c does not make it" prove_there
step "it is told what rt says" fails_with "rt: it says this" prove_there
rm "$repository/$kept"
step "a repository without the library" fails_with "BIEKKARUL_PROVE=1 makes it from the sources" build_there
step "the pages need no library" docs_there

echo "wrapper: $passed steps passed, $failed failed"
[ "$failed" -eq 0 ]
