#!/usr/bin/env bash
# The trials of trials/ without fuzzer and sanitizer: the shipped library and tracerun's own machine code against the
# model of the boards in C, over the fuzzer's first inputs and many that chance makes of them; and each fault of
# trials/faults.txt, put into the model under the calls, is found. Here calls.c has the shipped library on both sides. At the
# end it says whether the long runs that the pages record were on this library.
set -uo pipefail
export LC_ALL=C # one order of the files
source "$(dirname "${BASH_SOURCE[0]}")/need.bash" || exit 2
cd "$(dirname "${BASH_SOURCE[0]}")/.." || exit 2
source trials/parts.bash || exit 2

need_c || exit 1
need objcopy binutils command -v objcopy || exit 1
folder=$(library_folder) || exit 1
library=$(library_in "$folder") || exit 1
work=$(mktemp -d)
trap 'rm -rf "$work"' EXIT
tracerun_object "$work/tracerun.o" >"$work/log" 2>&1 ||
  { tail -n 5 "$work/log"; echo "rt run does not make tracerun"; exit 1; }

shipped_beside "$library" "$work/beside.a" && tracerun_within "$work/tracerun.o" "$work/within.o" || exit 1
mkdir "$work/calls" "$work/traces" && seeds "$work/calls" "$work/traces" || exit 1

built() { # built NAME LEVEL SOURCE WORDS..: at a level of optimisation
  local name=$1 level=$2 source=$3
  shift 3
  gcc "-O$level" -std=c11 -Wall -Wextra -Werror -Iinclude -o "$work/$name" "$source" "$@" ||
    { echo "$source does not build"; exit 1; }
}
built plain.o 1 trials/plain.c -c
built calls-trial 1 trials/calls.c "$work/plain.o" "$library" "$work/beside.a"
# shellcheck disable=SC2046
built traces-trial 1 trials/traces.c "$work/plain.o" "$work/within.o" $(program_parts)

for name in calls traces; do
  "$work/$name-trial" 20000 "$work/$name"/* >"$work/log" 2>&1 || { cat "$work/log"; echo "$name: not as the model says"; exit 1; }
  echo "$name: $(cat "$work/log") as the model says"
done

mkdir "$work/fault" && cp trials/calls.c trials/lent.h "$work/fault" || exit 1
found=0
while fault; do
  # a fault is found early, so that to optimise its trial would take longer than to run it
  built faulty 0 "$work/fault/calls.c" "$work/plain.o" "$library" "$work/beside.a"
  # within brackets, so that the shell's word of its end goes to the log too
  if ("$work/faulty" 20000 "$work/calls"/*; exit) >"$work/log" 2>&1 || ! grep -q '^broken at ' "$work/log"; then
    echo "not found: $old => $new"
    exit 1
  fi
  found=$((found + 1))
done < <(faults)
[ "$found" -ge 20 ] || { echo "only $found faults"; exit 1; }
echo "$found faults put into the model, each found"

last_run docs/TRIALS.md "the fuzzer" "bash trials/fuzz.sh --minutes 60" "$library" &&
  last_run docs/DIFFERENCES.md "the differential program" "it (docs/DIFFERENCES.md)" "$library"
