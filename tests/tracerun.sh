#!/usr/bin/env bash
# tracerun on traces of every board, and on inputs that are no trace. The expected answers are worked out by hand from
# document 01 and from M-100, M-101 and M-111 of document 02.
set -uo pipefail
source "$(dirname "${BASH_SOURCE[0]}")/need.bash" || exit 2
cd "$(dirname "${BASH_SOURCE[0]}")/.." || exit 2
need_program tracerun || exit 2
dir=$(mktemp -d)
trap 'rm -rf "$dir"' EXIT
held=0
failed=0

bytes() { # bytes HEX..: the bytes of hex digits
  local hex="$*"
  hex=${hex// /}
  printf '%b' "$(sed 's/../\\x&/g' <<<"$hex")"
}
fill() { head -c "$1" /dev/zero | tr '\0' "\\$(printf %o "0x$2")"; } # fill COUNT HEX: COUNT bytes of one value
header() { # header PRG CHR FLAGS6: an iNES header, counts in decimal, byte 6 in hex
  bytes "4E45531A $(printf '%02X%02X' "$1" "$2") $3 000000000000000000"
}
nes2_header() { # nes2_header PRG CHR FLAGS6 HEX: one that byte 7 marks as NES 2.0, with bytes 8 to 11
  bytes "4E45531A $(printf '%02X%02X' "$1" "$2") $3 08 $4 00000000"
}
trace() { # trace MODE IMAGE EVENT..: a well-formed trace of a file and of events of eight hex digits
  local mode=$1 image=$2
  shift 2
  bytes "01 $(printf '%08X' "$(stat -c %s "$image")") $mode"
  cat "$image"
  bytes "$(printf '%04X' $#) $*"
}
R() { printf '00%s00 ' "$@"; }                # R ADDRESS..
W() { printf '01%s%s ' "${1%=*}" "${1#*=}"; } # W ADDRESS=VALUE
C() { printf '02000000 '; }
serial() { # serial ADDRESS VALUE: the five writes that load a value of MMC1, least bit first
  local i
  for i in 0 1 2 3 4; do W "$1=0$((($2 >> i) & 1))"; done
}

same() { # same NAME WANTED: what tracerun makes of standard input is the wanted lines
  local got
  got=$(program tracerun; echo .)
  if [ "$got" == "$2"$'\n.' ]; then
    held=$((held + 1))
  else
    failed=$((failed + 1))
    echo "failed: $1"
    diff <(echo "$2") <(echo "${got%.}") | head -n 8
  fi
}
plays() { # plays NAME MODE IMAGE "EVENTS" LINE..: the lines after numbering
  local name=$1 mode=$2 image=$3 events=$4 wanted=$5 i=0
  shift 5
  for line; do
    wanted+=$'\n'"$i $line"
    i=$((i + 1))
  done
  # shellcheck disable=SC2086
  same "$name" "$wanted" < <(trace "$mode" "$image" $events)
}

# ---- images: each PRG and CHR bank is filled with a number of its own
{ header 1 0 01; fill 16384 AB; } >"$dir/nrom"
{ header 2 0 20; fill 16384 10; fill 16384 11; } >"$dir/uxrom"
{ header 1 2 30; fill 16384 10; fill 8192 C0; fill 8192 C1; } >"$dir/cnrom"
{ header 2 0 11; fill 16384 10; fill 16384 11; } >"$dir/mmc1"
{ header 1 1 41; fill 8192 00; fill 8192 01; for i in 0 1 2 3 4 5 6 7; do fill 1024 8$i; done; } >"$dir/mmc3"

# ---- the five boards
plays "house NROM: CHR RAM, one block twice" 00 "$dir/nrom" "$(R 8000 C000)$(W 1FFF=5A)$(R 1FFF 6000)$(C)" \
  "load 0 V 1 0" "R AB" "R AB" "W -" "R 5A" "R 00" "C 0"
plays "house UxROM: the whole byte is the bank" 00 "$dir/uxrom" "$(R 8000 C000)$(W FFFF=01)$(R 8000)$(W 8000=02)$(R 8000 FFFF)" \
  "load 2 H 2 0" "R 10" "R 11" "W -" "R 11" "W -" "R !11" "R 11"
plays "board UxROM: modulo the count" 01 "$dir/uxrom" "$(W 8000=02)$(R 8000)$(W 8000=FF)$(R 8000)" \
  "load 2 H 2 0" "W -" "R 10" "W -" "R 11"
plays "house CNROM: one PRG block fills C000-FFFF" 00 "$dir/cnrom" "$(R BFFF C000 0000)$(W 8000=FD)$(R 0000)$(W 5000=00)$(R 2000)$(W 0000=77)$(R 1FFF)" \
  "load 3 H 1 2" "R !13" "R 10" "R C0" "W -" "R C1" "W !13" "R !13" "W -" "R C1"
plays "board CNROM: the block shows twice, 2000-7FFF reads 0" 01 "$dir/cnrom" "$(R BFFF 2000)$(W 5000=00)$(W 0000=77)$(R 0000)" \
  "load 3 H 1 2" "R 10" "R 00" "W -" "W -" "R C0"
plays "house MMC1: PRG RAM, control, notices against the header's" 00 "$dir/mmc1" \
  "$(W 6000=99)$(R 6000)$(R 8000 C000)$(serial 8000 19)$(serial 8000 18)$(serial 8000 17)$(serial 8000 16)$(serial 9FFF 31)" \
  "load 1 V 2 0" "W -" "R 99" "R 10" "R 11" \
  "W -" "W -" "W -" "W -" "W H" "W -" "W -" "W -" "W -" "W -" "W -" "W -" "W -" "W -" "W U" "W -" "W -" "W -" "W -" "W L" \
  "W -" "W -" "W -" "W -" "W H"
plays "board MMC1: notices against the current mirroring" 01 "$dir/mmc1" "$(serial 8000 31)$(serial 8000 31)$(serial 8000 30)" \
  "load 1 V 2 0" "W -" "W -" "W -" "W -" "W H" "W -" "W -" "W -" "W -" "W -" "W -" "W -" "W -" "W -" "W V"
plays "house MMC1: a bit 7 write clears the serial register and nothing else" 00 "$dir/mmc1" \
  "$(serial 8000 10)$(R 8000)$(serial E000 1)$(R 8000 C000)$(W E000=01)$(W E000=80)$(R C000)" \
  "load 1 V 2 0" "W -" "W -" "W -" "W -" "W -" "R 10" "W -" "W -" "W -" "W -" "W -" "R 10" "R 11" "W -" "W -" "R 11"
plays "board MMC1: a bit 7 write also sets PRG mode 3" 01 "$dir/mmc1" \
  "$(serial 8000 10)$(serial E000 0)$(R C000)$(W 8000=80)$(R 8000 C000)" \
  "load 1 V 2 0" "W -" "W -" "W -" "W -" "W -" "W -" "W -" "W -" "W -" "W -" "R 10" "W -" "R 10" "R 11"
irq="$(W C000=02)$(W C001=00)$(W E001=00)$(C)$(C)$(C)$(C)$(C)$(C)$(C)"
plays "house MMC3: latch 2 answers yes at clocks 4 and 7" 00 "$dir/mmc3" "$irq" \
  "load 4 V 1 1" "W -" "W -" "W -" "C 0" "C 0" "C 0" "C 1" "C 0" "C 0" "C 1"
plays "board MMC3: with latch 2 the line is up from clock 3 on" 01 "$dir/mmc3" "$irq" \
  "load 4 V 1 1" "W -" "W -" "W -" "C 0" "C 0" "C 1" "C 1" "C 1" "C 1" "C 1"
# two clocks with latch 1; a write to each register but that at E000, and a read; a clock, which reloads with 5; then acknowledged
acknowledged="$(W C000=01)$(W C001=00)$(W E001=00)$(C)$(C)"
acknowledged+="$(W 8000=06)$(W 8001=00)$(W A000=00)$(W A001=00)$(W C000=05)$(W FFFF=00)$(R E000)"
acknowledged+="$(C)$(W E000=00)$(C)$(W E001=00)$(C)$(C)$(C)$(C)$(C)"
plays "board MMC3: the line is up until an even write to E000-FFFF" 01 "$dir/mmc3" "$acknowledged" \
  "load 4 V 1 1" "W -" "W -" "W -" "C 0" "C 1" "W -" "W -" "W -" "W -" "W -" "W -" "R 01" \
  "C 1" "W -" "C 0" "W -" "C 0" "C 0" "C 0" "C 1" "C 1"
plays "house MMC3: the same calls, and yes at single clocks" 00 "$dir/mmc3" "$acknowledged" \
  "load 4 V 1 1" "W -" "W -" "W -" "C 0" "C 0" "W -" "W -" "W -" "W -" "W -" "W -" "R 01" \
  "C 1" "W -" "C 0" "W -" "C 0" "C 0" "C 0" "C 0" "C 1"
plays "board MMC3: with latch 0 any clock raises the line, but not while disabled" 01 "$dir/mmc3" \
  "$(W C000=00)$(W C001=00)$(W E001=00)$(C)$(C)$(W FFFE=FF)$(C)$(W E001=00)$(C)" \
  "load 4 V 1 1" "W -" "W -" "W -" "C 1" "C 1" "W -" "C 0" "W -" "C 1"
# a byte in PRG RAM; disabled (00), read, written; open again (80), read; denied (C0), read, written, read; disabled and denied (7F), an
# even write, read; open (BF), written at its other end, and both ends read
protected="$(W 6000=5A)$(W A001=00)$(R 6000)$(W 6000=33)$(W A001=80)$(R 6000)"
protected+="$(W BFFF=C0)$(R 6000)$(W 6000=44)$(R 6000)$(W B001=7F)$(W A000=80)$(R 6000)$(W A001=BF)$(W 7FFF=55)$(R 6000 7FFF)"
plays "board MMC3: disabled RAM reads 0, disabled or denied RAM ignores writes" 01 "$dir/mmc3" "$protected" \
  "load 4 V 1 1" "W -" "W -" "R 00" "W -" "W -" "R 5A" "W -" "R 5A" "W -" "R 5A" "W -" "W -" "R 00" "W -" "W -" "R 5A" "R 55"
plays "house MMC3: the same calls, and RAM is enabled and writable" 00 "$dir/mmc3" "$protected" \
  "load 4 V 1 1" "W -" "W -" "R 5A" "W -" "W -" "R 33" "W -" "R 33" "W -" "R 44" "W -" "W -" "R 44" "W -" "W -" "R 44" "R 55"
plays "board MMC1: the same calls are bits and resets of its serial register" 01 "$dir/mmc1" "$protected" \
  "load 1 V 2 0" "W -" "W -" "R 5A" "W -" "W -" "R 33" "W -" "R 33" "W -" "R 44" "W -" "W -" "R 44" "W -" "W -" "R 44" "R 55"
plays "house MMC3: notices against the header's, refusal 14" 00 "$dir/mmc3" \
  "$(W A000=01)$(W A000=01)$(W A000=00)$(W E001=00)$(W E000=00)$(R 8000)" \
  "load 4 V 1 1" "W H" "W H" "W -" "W -" "W !14" "R 00"
plays "board MMC3: notices against the current mirroring, no refusal" 01 "$dir/mmc3" \
  "$(W A000=01)$(W A000=01)$(W A000=00)$(W E001=00)$(W E000=00)$(W 8000=02)$(W 8001=0D)$(R 1000)" \
  "load 4 V 1 1" "W H" "W -" "W V" "W -" "W -" "W -" "W -" "R 85"

# ---- NES 2.0: house mode reads these images as iNES, board mode as M-100 says
{ nes2_header 2 0 11 00000007; fill 16384 10; fill 16384 11; } >"$dir/mmc1-without-ram"
{ nes2_header 2 0 11 00007070; fill 16384 10; fill 16384 11; } >"$dir/mmc1-with-ram"
{ nes2_header 1 1 41 00000000; fill 16384 10; fill 8192 C0; } >"$dir/mmc3-without-ram"
{ nes2_header 1 1 20 00010700; fill 16384 10; fill 8192 C0; } >"$dir/prg-257"
{ nes2_header 1 0 20 00100000; fill 16384 10; } >"$dir/chr-256"
ram="$(W 6000=99)$(R 6000)$(W 7FFF=98)$(R 7FFF)$(W 1FFF=5A)$(R 1FFF 8000)"
plays "board MMC1 without PRG RAM: 6000-7FFF reads 0 and ignores writes, CHR RAM is there" 01 "$dir/mmc1-without-ram" "$ram" \
  "load 1 V 2 0" "W -" "R 00" "W -" "R 00" "W -" "R 5A" "R 10"
plays "board MMC1 with PRG RAM by its high nibble" 01 "$dir/mmc1-with-ram" "$ram" \
  "load 1 V 2 0" "W -" "R 99" "W -" "R 98" "W -" "R 5A" "R 10"
plays "board MMC3 without PRG RAM" 01 "$dir/mmc3-without-ram" "$ram" \
  "load 4 V 1 1" "W -" "R 00" "W -" "R 00" "W -" "R C0" "R 10"
plays "board MMC3 without PRG RAM: the marks change nothing" 01 "$dir/mmc3-without-ram" "$protected" \
  "load 4 V 1 1" "W -" "W -" "R 00" "W -" "W -" "R 00" "W -" "R 00" "W -" "R 00" "W -" "W -" "R 00" "W -" "W -" "R 00" "R 00"
plays "house MMC1 has PRG RAM, whatever byte 10 says" 00 "$dir/mmc1-without-ram" "$ram" \
  "load 1 V 2 0" "W -" "R 99" "W -" "R 98" "W -" "R 5A" "R 10"
plays "house mode counts by bytes 4 and 5 alone, PRG" 00 "$dir/prg-257" "$(R 8000 0000)" "load 2 H 1 1" "R 10" "R C0"
plays "house mode counts by bytes 4 and 5 alone, CHR" 00 "$dir/chr-256" "$(R 8000 0000)" "load 2 H 1 0" "R 10" "R 00"
plays "no event at all" 01 "$dir/nrom" "" "load 0 V 1 0"

# ---- 1,024 events, the most: the last line is the 1,024th
trace 00 "$dir/nrom" $(for ((i = 0; i < 1024; i++)); do C; done) >"$dir/many"
same "1,024 events" "$(echo "load 0 V 1 0"; for ((i = 0; i < 1024; i++)); do echo "$i C 0"; done)" <"$dir/many"
# ---- the greatest trace: 40,976 bytes of image, 1,024 events
{ cat "$dir/mmc3"; fill 16384 00; } >"$dir/long"
trace 00 "$dir/long" $(for ((i = 0; i < 1024; i++)); do R E000; done) >"$dir/greatest"
same "the greatest trace, 45,080 bytes" "$(echo "load 4 V 1 1"; for ((i = 0; i < 1024; i++)); do echo "$i R 01"; done)" <"$dir/greatest"

# ---- refused loads: the number alone
refused() { # refused NUMBER NAME MODE IMAGE: one event, of which nothing is printed
  same "$2" "refused $1" < <(trace "$3" "$4" "$(R 8000)")
}
{ header 1 0 00; fill 16383 00; } >"$dir/i3"
{ header 1 0 54; fill 16384 00; } >"$dir/i4"
{ header 1 0 08; fill 16384 00; } >"$dir/i5"
{ header 3 0 00; fill 16384 00; } >"$dir/i6"
{ header 2 0 20; fill 32767 00; } >"$dir/i7"
{ header 1 3 10; fill 40960 00; } >"$dir/i8"
: >"$dir/none"
refused 3 "an image one byte short of the least" 00 "$dir/i3"
refused 3 "an empty image" 00 "$dir/none"
refused 4 "mapper 5, before byte 6's bit 2" 00 "$dir/i4"
refused 5 "byte 6 has bit 3" 00 "$dir/i5"
refused 6 "three PRG blocks on NROM" 00 "$dir/i6"
refused 7 "an image one byte short of its blocks" 00 "$dir/i7"
refused 8 "board mode, three CHR blocks" 01 "$dir/i8"
# no trace has room for a count above 255, so its `load` line shows none: 7 says that the longer count was judged
refused 7 "board mode, 257 PRG blocks by byte 9 and an image of one" 01 "$dir/prg-257"
refused 7 "board mode, 256 CHR blocks by byte 9 and an image of none" 01 "$dir/chr-256"
nes2_refused() { # nes2_refused NUMBER NAME PRG CHR FLAGS6 HEX: in board mode
  { nes2_header "$3" "$4" "$5" "$6"; fill 40960 00; } >"$dir/nes2"
  refused "$1" "board mode, NES 2.0, $2" 01 "$dir/nes2"
}
nes2_refused 4 "mapper 260, before byte 6's bit 2 and a submapper" 1 1 44 11000700
nes2_refused 5 "byte 6 has bit 3, before a submapper" 1 1 48 10000700
nes2_refused 16 "a submapper" 1 1 40 10000700
nes2_refused 16 "a PRG exponent" 1 1 40 000F0700
nes2_refused 16 "a CHR exponent" 1 1 40 00F00700
nes2_refused 16 "PRG RAM on both sides" 1 1 40 00007700
nes2_refused 16 "PRG RAM of 16 KB" 1 1 40 00000800
nes2_refused 16 "CHR RAM of 16 KB" 1 0 40 00000080
nes2_refused 16 "CHR RAM beside CHR ROM" 1 1 40 00000707
nes2_refused 16 "neither CHR RAM nor CHR ROM" 1 0 40 00000700
nes2_refused 16 "no PRG block, but a submapper first" 0 1 40 10000700
nes2_refused 6 "no PRG block" 0 1 40 00000700
nes2_refused 8 "three CHR blocks" 1 3 40 00000700
plays "house mode takes three CHR blocks" 00 "$dir/i8" "" "load 1 H 1 3"

# ---- no trace: refused 15 alone, even where the load would be refused as well
trace 00 "$dir/nrom" $(R 8000) $(W 8000=01) $(C) >"$dir/good"
size=$(stat -c %s "$dir/good")
events=$((size - 12)) # where the first event starts
malformed() { same "$1" "refused 15"; }
put() { # put OFFSET HEX: the good trace with other bytes at a place
  local n=$((${#2} / 2))
  head -c "$1" "$dir/good"
  bytes "$2"
  tail -c +$(($1 + n + 1)) "$dir/good"
}
same "the trace that the next ones damage" $'load 0 V 1 0\n0 R AB\n1 W -\n2 C 0' < <(put 0 01)
malformed "nothing" </dev/null
malformed "a directory" <"$dir"
malformed "one byte" < <(bytes 01)
malformed "cut in the head" < <(head -c 5 "$dir/good")
malformed "cut in the image" < <(head -c 9000 "$dir/good")
malformed "cut before the event count" < <(head -c $((events - 2)) "$dir/good")
malformed "cut within the event count" < <(head -c $((events - 1)) "$dir/good")
malformed "no events after the count" < <(head -c "$events" "$dir/good")
malformed "the last byte missing" < <(head -c $((size - 1)) "$dir/good")
malformed "one byte left over" < <(cat "$dir/good"; bytes 00)
malformed "one event left over" < <(cat "$dir/good"; bytes "$(R 8000)")
malformed "45,081 bytes" < <(cat "$dir/greatest"; bytes 00)
malformed "a million bytes" < <(cat "$dir/greatest"; fill 1000000 00)
malformed "version 0" < <(put 0 00)
malformed "version 2" < <(put 0 02)
malformed "mode 2" < <(put 5 02)
malformed "mode 255" < <(put 5 FF)
{ header 1 3 10; fill 40961 00; } >"$dir/over"
malformed "an image of 40,977 bytes" < <(trace 00 "$dir/over")
malformed "an image length that says more than there is" < <(put 1 FFFFFFFF)
malformed "an image length one less" < <(put 1 "$(printf '%08X' $((events - 9)))")
malformed "a length in the other byte order" < <(put 1 10400000)
malformed "event kind 3" < <(put "$events" 03)
malformed "event kind 255" < <(put "$events" FF)
malformed "a read with a value" < <(put $((events + 3)) 01)
malformed "a clock with an address, high byte" < <(put $((events + 9)) 01)
malformed "a clock with an address, low byte" < <(put $((events + 10)) 01)
malformed "a clock with a value" < <(put $((events + 11)) 01)
malformed "1,025 events" < <(trace 00 "$dir/nrom" $(for ((i = 0; i < 1025; i++)); do C; done))
malformed "a malformed event after an image that no load takes" < <(trace 00 "$dir/none" 03000000)

# What cannot be written is told on standard error: the program has no status to set.
if [ -e /dev/full ]; then
  message=$(program tracerun <"$dir/good" 2>&1 >/dev/full)
  if [ "$message" = "tracerun: the text cannot be written" ]; then
    held=$((held + 1))
  else
    echo "a full disk: it said '$message'"
    failed=$((failed + 1))
  fi
fi

echo "tests/tracerun.sh: $held traces as document 01 says, $failed not"
[ "$failed" -eq 0 ]
