#!/usr/bin/env bash
# The trial by fire: a coverage-guided fuzzer (libFuzzer) on the exported functions and on tracerun. What no proof covers
# is tried here: the compiler's back end and the boundary to C. Both targets are compiled from the very modules that the
# proof has passed, with the address sanitizer; the exported functions run beside the library as it is shipped; all
# answers are held to a model of the boards in C. docs/TRIALS.md says more, and what the long runs gave.
#
#   bash trials/fuzz.sh [--minutes N]     both targets side by side, two minutes where nothing is said
#   bash trials/fuzz.sh --faults          whether the trial finds each fault of trials/faults.txt, put into the model
#
# The gate runs the targets without the fuzzer (tests/trials.sh). Ends non-zero where a target finds a fault, and leaves the input that led to it in target/trials.
set -uo pipefail
source "$(dirname "${BASH_SOURCE[0]}")/../tests/need.bash" || exit 2
source "$(dirname "${BASH_SOURCE[0]}")/parts.bash" || exit 2
cd "$(dirname "${BASH_SOURCE[0]}")/.." || exit 2

minutes=2
case "$# ${1:-}" in
'0 ' | '1 --faults') ;;
'2 --minutes') minutes=$2 ;;
*) minutes= ;;
esac
[[ $minutes =~ ^[1-9][0-9]*$ ]] || { echo "usage: bash trials/fuzz.sh [--minutes N | --faults]"; exit 2; }

command -v rt >/dev/null || { echo "the Rattle toolchain (rt) is not on this machine's PATH"; exit 2; }
links_with_sanitizers() { clang -fsanitize=fuzzer,address,undefined -x c -o /dev/null - <<<'
  #include <stdint.h>
  #include <stddef.h>
  int LLVMFuzzerTestOneInput(const uint8_t *bytes, size_t length) { return bytes == 0 && length; }'; }
need clang clang command -v clang || exit 1
need objcopy binutils command -v objcopy || exit 1
need llvm-symbolizer llvm command -v llvm-symbolizer || exit 1
version=$(clang -dumpversion) || exit 1
need "clang's sanitizers" "libclang-rt-${version%%.*}-dev" links_with_sanitizers || exit 1

work=$PWD/target/trials
mkdir -p "$work/corpus/calls" "$work/corpus/traces" || exit 2

# all_watched TEXT: every function of the module has attributes by which the sanitizer watches it.
all_watched() {
  local defines group
  defines=$(grep '^define ' "$1") && ! grep -qvE ' #[0-9]+ ' <<<"$defines" || return
  for group in $(grep -oE ' #[0-9]+ ' <<<"$defines" | sort -u); do
    grep -q "^attributes $group = { sanitize_address" "$1" || return
  done
}

# instrumented MODULE: target/trials/NAME.o, compiled as rt does, with the sanitizer and with coverage.
instrumented() {
  local name names
  name=$(basename "$1" .bc)
  # the attributes of its functions are those that ask for a stack probe
  text_of "$1" "$(uname -m)" | sed '/^attributes .*"probe-stack"/s/ = { / = { sanitize_address /' >"$work/$name.ll" &&
    grep -q '^attributes #0 = { sanitize_address' "$work/$name.ll" &&
    clang_for "$(uname -m)" "${as_rt[@]}" -fsanitize=address \
      -fsanitize-coverage=inline-8bit-counters,pc-table,trace-cmp -o "$work/$name.o" "$work/$name.ll" &&
    names=$(nm "$work/$name.o") && grep -q __sanitizer_cov_8bit_counters_init <<<"$names" && grep -q __asan_report_load <<<"$names" &&
    grep -q __asan_report_store <<<"$names" && all_watched "$work/$name.ll" ||
    { echo "the module of $name cannot be instrumented"; return 1; }
}

linked() { # linked NAME SOURCE WORDS..
  local name=$1 source=$2
  shift 2
  clang -g -O1 -std=c11 -Wall -Wextra -Werror -Iinclude -fsanitize=fuzzer,address,undefined \
    -fno-sanitize-recover=all -o "$work/$name" "$source" "$@" || { echo "$source does not build"; return 1; }
}

echo "proving and catching what is tried"
unset BIEKKARUL_LIB # the shipped library and the instrumented one are of one proof
library=$(library_folder 2>"$work/exports.log") && library=$(library_in "$library") || { tail -n 5 "$work/exports.log"; exit 1; }
tracerun_module >"$work/tracerun.log" 2>&1 || { tail -n 5 "$work/tracerun.log"; echo "the module of tracerun was not caught"; exit 1; }
instrumented target/staticlib/exports_c.bc && instrumented "$work/tracerun.bc" || exit 1
shipped_beside "$library" "$work/beside.a" && tracerun_within "$work/tracerun.o" "$work/within.o" || exit 1
linked calls trials/calls.c "$work/exports_c.o" "$work/beside.a" || exit 1
linked short trials/calls.c -DLENT_SHORT=1 "$work/exports_c.o" "$work/beside.a" || exit 1
# shellcheck disable=SC2046
linked traces trials/traces.c "$work/within.o" $(program_parts) || exit 1

seeds "$work/corpus/calls" "$work/corpus/traces"

# The sanitizer sees into the library: with the image's last byte not lent, that read must be reported there.
if "$work/short" "$work/corpus/calls/seed-last-byte" >"$work/short.log" 2>&1 || ! grep -q 'use-after-poison' "$work/short.log" ||
  ! grep -A 9 'use-after-poison' "$work/short.log" | grep -q '#0 .* in biekkarul_read'; then
  echo "a byte too few is not reported: the trial would show nothing"
  exit 1
fi

# One fault after another: the inputs kept so far first, then up to a minute of new ones.
find_faults() {
  local count=0 missed=0
  rm -rf "$work/fault" && mkdir -p "$work/fault/new" && cp trials/calls.c trials/lent.h "$work/fault" || return
  while fault; do
    count=$((count + 1))
    linked faulty "$work/fault/calls.c" "$work/exports_c.o" "$work/beside.a" || return
    if "$work/faulty" -max_total_time=60 -max_len=1024 -artifact_prefix="$work/fault/" "$work/fault/new" "$work/corpus/calls" >"$work/fault/log" 2>&1 ||
      ! grep -q '^broken at ' "$work/fault/log"; then
      echo "not found: $old => $new"
      missed=$((missed + 1))
    fi
  done < <(faults)
  echo "$count faults put into the model, $((count - missed)) found"
  [ "$count" -ge 20 ] && [ "$missed" -eq 0 ]
}
[ "${1:-}" != --faults ] || { find_faults; exit; }

try() { # try NAME GREATEST-LENGTH
  "$work/$1" -max_total_time=$((minutes * 60)) -max_len="$2" -timeout=60 -report_slow_units=60 -print_final_stats=1 \
    -artifact_prefix="$work/found-$1-" "$work/corpus/$1" >"$work/$1.log" 2>&1
}
told() { # told NAME STATUS: the figures of a run
  local runs edges kept
  runs=$(sed -n 's/^stat::number_of_executed_units: *//p' "$work/$1.log")
  edges=$(grep -o 'cov: [0-9]*' "$work/$1.log" | tail -n 1)
  kept=$(find "$work/corpus/$1" -type f | wc -l)
  if [ "$2" -ne 0 ] || [ -z "$runs" ]; then
    echo "$1: ended with status $2 after ${runs:-?} executions: see target/trials/$1.log, and target/trials/found-$1-* for a fault"
    return 1
  fi
  echo "$1: $runs executions in $minutes min, ${edges#cov: } edges reached, $kept inputs kept, no fault"
}

echo "trying calls and traces for $minutes min"
try calls 1024 &
calls=$!
try traces 4200 &
traces=$!
status=0
wait "$calls"
told calls $? || status=1
wait "$traces"
told traces $? || status=1
echo "the library: $(library_mark "$library")" # for the table in docs/TRIALS.md
exit "$status"
