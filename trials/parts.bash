# What fuzz.sh and tests/trials.sh share: the inputs that they start from, what they link and its names, the faults.

# bytes HEX..: those bytes.
bytes() {
  local hex="$*" escaped= at
  hex=${hex//[[:space:]]/}
  for ((at = 0; at < ${#hex}; at += 2)); do escaped+="\\x${hex:at:2}"; done
  printf '%b' "$escaped"
}

# history MAPPER READ WRITE CLOCK: calls that visit each register and each window of the board, as hex, banks, latch
# and RAM also with the greatest value. READ, WRITE and CLOCK are the bytes that stand for the calls.
history() {
  local mapper=$1 read=$2 write=$3 clock=$4 address n
  serial() { # serial ADDRESS VALUE: five bits, least first
    for n in 0 1 2 3 4; do echo "$write${1}0$(($2 >> n & 1))"; done
  }
  case $mapper in
  1)
    echo "${write}800080"
    serial 8000 0
    serial E000 7
    serial C000 9
    serial A000 31
    echo "${read}8000${read}C000${read}1000"
    serial 8000 28
    echo "${read}1000"
    serial A000 31
    serial C000 30
    ;;
  2 | 3) echo "${write}8000FE${read}8000${write}8000FF" ;;
  4)
    for n in 0 1 2 3 4 5 6 7; do echo "${write}80000${n}${write}8001FF"; done
    echo "${write}8000C0${write}A00001${write}C00002${write}C00100${write}E00100$clock$clock$clock$clock$clock${write}E00000"
    line_history "$write" "$clock"
    ram_history "$read" "$write"
    echo "${write}C000FF${write}C00100$clock$clock"
    ;;
  esac
  for address in 0000 0400 0FFF 1000 1C00 1FFF 2000 6000 8000 A000 C000 E000 FFFF; do
    echo "$write${address}5A$read$address"
  done
  for address in 0000 1FFF 6000 7FFF; do echo "$write${address}FF$read$address"; done
}

# line_history WRITE CLOCK: MMC3's line as board mode has it (M-101). A disabled unit does not raise it, an enabled one does.
# It stays up over clocks and over a write to every register but E000's; acknowledged there, it is low until a reload with 0
# raises it again.
line_history() {
  local write=$1 clock=$2 other
  echo "${write}C00001${write}C00100$clock$clock${write}E00100$clock$clock$clock"
  for other in 8000C0 8001FF A00001 A001FF C00004 C00100 E00100; do echo "$write$other$clock"; done
  echo "${write}E00000$clock${write}E00100$clock${write}C00000${write}C00100$clock$clock${write}FFFEFF$clock"
}

# ram_history READ WRITE: MMC3's RAM as board mode protects it (M-111). Bits 7 and 6 go from each of their settings to each, by odd
# writes to A000-BFFF that have the lower bits clear and set; after each, PRG RAM is written and read at one of its ends. Then CHR
# RAM, which is not concerned; writes that leave the marks, even ones among them, while PRG RAM is locked and while it is open. In
# the end it is open.
ram_history() {
  local read=$1 write=$2 marks other ends=(6000 7FFF) at=0 value=16
  echo "${write}8000C5" # so that a select which is lost is seen
  for marks in A00180 BFFFBF A001C0 B00180 A00100 AFFFBF BFFF7F A001FF B001C0 BFFF3F A001C0 A00140 A00100 BFFF3F B00140 AFFF7F A00180; do
    echo "$write$marks$write${ends[at]}$value$read${ends[at]}"
    at=$((1 - at)) value=$((value + 1))
  done
  echo "${write}A00140${write}00005A${read}0000"
  for other in A00080 9FFF80 DFFF80 FFFF80 BFFE00; do echo "$write$other"; done
  echo "${write}A00180"
  for other in A00000 BFFEC0 800140 C00140 E00140; do echo "$write$other${read}6000"; done
}

# spoils MAPPER: bytes put into the state that leave it a state of this board (of NROM: that leave it none), as hex.
spoils() {
  case $1 in
  0) echo 861001 ;;       # UxROM's bank
  1) echo 8613AE861501 ;; # PRG mode 3, 4 KB CHR mode, CHR 0, PRG
  2) echo 861003 ;;
  3) echo 861102 ;;
  4) echo 861A07861E05862103862227 ;; # R2, R6, the counter, select 7 and enabled
  esac
}

# line_spoils MODE: the line put up in the state, with IRQ disabled and with IRQ enabled (M-101): MMC3 in board mode takes it, no
# other board does. Put up, it is acknowledged; put up again, it gets an odd write and then a load. A clock after each.
line_spoils() {
  local byte
  for byte in 80 A0; do echo "8622${byte}05 02E00000 05 8622${byte}05 02E00100 05 87$1 05"; done
}

# ram_spoils MODE: the four settings of the marks put into the state (M-111): MMC3 in board mode takes each, no other board takes
# one but enabled and writable. PRG RAM, which holds a byte, is read, written and read, there is a clock, an odd write that unlocks
# and one that denies; then a load, and what it left is read and written.
ram_spoils() {
  local byte
  for byte in 01 00 03 02; do
    echo "0260005A 8623$byte 006000 2260005C 006000 05 22A00180 006000 22BFFFC0 2260005D 006000 87$1 2260005E 006000"
  done
}

# seeds CALLS TRACES: fills the two folders.
seeds() {
  local mapper mode counts choice byte6 write zeros=00000000000000000000
  for mapper in 0 1 2 3 4; do
    byte6=$(printf '%02X' $((mapper * 16)))
    for mode in 00 01; do
      # few, the greatest that NROM and CNROM take, as many as MMC1's and MMC3's registers can say and more, the greatest
      for counts in 0100 0101 0202 0280 0300 0402 1010 2020 4040 8080 FFFF; do
        for write in 02 22; do # plain, and telling which pages it moved
          # mode, choice of the image's length, header, choices of three lengths
          bytes "$mode" 00 "$counts$byte6${zeros:0:18}" 000000 "$(history "$mapper" 00 "$write" 05)" >"$1/seed-$mapper-$mode-$counts-$write"
        done
      done
      bytes "$mode" 00 "0202$byte6${zeros:0:18}" 000000 "$(spoils "$mapper")" 85008500 "$(history "$mapper" 00 02 05)" >"$1/seed-spoilt-$mapper-$mode"
      # the line by itself, in a few calls: its name stands first, so that a fault of it is found at once
      bytes "$mode" 00 "0202$byte6${zeros:0:18}" 000000 "$(line_history 22 05)" "$(line_spoils "$mode")" >"$1/line-$mapper-$mode"
      for counts in 0100 0101 0103 0200 0201; do # 40,976 bytes at most
        # form, choice of what is spoilt, mode, header
        bytes 00 00 "$mode" "$counts$byte6${zeros:0:18}" "$(history "$mapper" 00 01 02)" >"$2/seed-$mapper-$mode-$counts"
      done
    done
  done
  for choice in EB EC ED EE EF F0 F1 F2 F3 F4 F5 F6 F7 F8 F9; do # what the choices spoil
    bytes 00 "$choice" 010000"${zeros:0:18}" 000000 408000 428000FF >"$1/seed-choice-$choice"
    bytes 00 "$choice" 00 010000"${zeros:0:18}" 008000 01800002 >"$2/seed-choice-$choice"
  done
  bytes 00 00 010000"${zeros:0:18}" F30000 008000 01800000 05 >"$1/seed-state-length"
  bytes 00 00 010000"${zeros:0:18}" 00F300 008000 01800000 05 >"$1/seed-prg-length"
  bytes 00 00 010000"${zeros:0:18}" 0000F3 008000 01800000 05 >"$1/seed-chr-length"
  for choice in 04 08 0C; do # headers that mark NES 2.0 and that do not, and room for other counts of digits
    bytes 00 00 010000"$choice${zeros:0:16}" 000000 8500 85F3 85F5 85F8 85FF >"$1/seed-digits-$choice"
  done
  # all pages, some, none, one too many, and from page 255 on; of a state that is one, then of one that is none
  bytes 00 00 020040"${zeros:0:18}" 000000 07004040 07080808 07200020 07400000 07004100 07000041 07FF0101 860001 07004040 >"$1/seed-pages"
  # an image lent a byte shorter than it was loaded, and a read of the image's last byte
  bytes 00 00 010100"${zeros:0:18}" 000000 408000 428000FF >"$1/seed-other-length"
  bytes 00 00 010100"${zeros:0:18}" 000000 001FFF >"$1/seed-last-byte"
  ram_seeds "$1"
  nes2_board_seeds "$1" "$2"
  nes2_load_seeds "$1" "$2"
}

# Images that byte 7 marks as NES 2.0 (M-100): byte 6's low nibble, bytes 4 and 5, then 8 to 11, as hex. First those that
# board mode takes, of some boards at least: PRG RAM and none, on one side or the other, counts of 256 and 512.
nes2_taken=(0:0202:00000700 0:0200:00000007 0:0101:00007000 0:0100:00007070 0:0200:00000070
  0:0000:00010007 0:0002:00020700 0:0100:00100000)
# Those that it refuses, with a limit or an order in each.
nes2_refused=(
  0:0101:01000700 0:0101:0F000700 0:0101:08000700 0:0101:11000700 # the mapper's extension, before a submapper
  0:0101:10000700 0:0101:80000700 0:0101:F0000700                 # a submapper
  0:0101:000F0700 0:0101:00F00700 0:0101:00FF0700 0:0101:000E0700 # exponents, and the nibble below them
  0:0101:00007700 0:0101:00000800 0:0101:00008000 0:0101:00007100 # bytes 10 and 11 that hold no such shifts
  0:0100:00000077 0:0100:00000008 0:0100:00000080 0:0100:00000017
  0:0100:00000700 0:0101:00000707 0:0101:00000770                 # byte 11 against the count of CHR
  4:0101:10000700 8:0101:000F0700 4:0100:00000000 8:0101:01000700 # 5 before 16, 4 before 5
  0:0002:10000700 0:0002:00000707 0:0002:000F0700 0:0002:00000700 # 16 before 6, and 6
  0:0300:00000000 0:0103:00000700 0:0300:00000007 0:0700:00000007 # 16 before 8, and 8
)
# Longer ones: byte 11 against 256 blocks of CHR, and counts of 257 and 768, for which 8 stands last.
nes2_long=(0:0100:00100007 0:0101:00010700 0:0101:00100700 0:0100:00300000)

# nes2_header MAPPER ROW MARK: bytes 4 to 15 of a row of those; bytes 12 to 15 change nothing.
nes2_header() {
  local row=$2
  echo "${row:2:4}$1${row:0:1}$3${row:7}FF0180FE"
}

# note_spoils: byte 2 of the state as a board of NES 2.0 has it without PRG RAM, then as no board has it: a digit of 2 or 3,
# no mark, house mode; between them as boards without the mark, and of house mode, have it. After each: a read and a write of
# PRG RAM, and a clock.
note_spoils() {
  local byte
  for byte in 43 03 83 C3 41 01 42 02 40 00 03; do echo "8602${byte}0060002260005B05"; done
}

# ram_seeds CALLS: the marks by themselves, in a few calls, on every board: with CHR ROM and with CHR RAM, without PRG RAM, and
# where the state alone says whether PRG RAM is there; put into house mode while it is locked, a state is none. Their names stand
# before the long ones, so that a fault of the marks is found at once.
ram_seeds() {
  local mapper mode kind
  for mapper in 0 1 2 3 4; do
    for mode in 00 01; do
      for kind in 0:0202:00000000/00 0:0200:00000000/00 0:0200:00000007/08; do # a row and byte 7
        bytes "$mode" 00 "$(nes2_header "$mapper" "${kind%/*}" "${kind#*/}")" 000000 \
          "$(ram_history 00 22)" "$(ram_spoils "$mode")" >"$1/ram-$mapper-$mode-${kind%/*}"
      done
    done
    bytes 01 00 "$(nes2_header "$mapper" 0:0202:00000700 08)" 000000 0260005A 22A00100 860203 006000 22A00180 006000 860243 006000 \
      22A00140 860203 2260005B 860243 006000 860242 006000 860243 22A001C0 006000 >"$1/ram-note-$mapper"
  done
}

# Headers of NES 2.0 in both modes, and states around what only they can say. What is played in no time has a name that
# stands first, so that a fault that it shows is found at once.

# nes2_board_seeds CALLS TRACES: boards that play.
nes2_board_seeds() {
  local mapper mode row calls events
  for mapper in 0 1 2 3 4; do
    calls=$(history "$mapper" 00 22 05) events=$(history "$mapper" 00 01 02)
    for mode in 00 01; do
      for row in "${nes2_taken[@]}"; do
        bytes "$mode" 00 "$(nes2_header "$mapper" "$row" 08)" 000000 "$calls" >"$1/seed-nes2-$mapper-$mode-$row"
        bytes 00 00 "$mode" "$(nes2_header "$mapper" "$row" 08)" "$events" >"$2/seed-nes2-$mapper-$mode-$row"
      done
      # with PRG RAM, and a byte in it
      bytes "$mode" 00 "$(nes2_header "$mapper" 0:0202:00000700 08)" 000000 "0260005A$(note_spoils)" >"$1/nes2-note-$mapper-$mode"
      # counts of 256, then as no board has them: without the mark, and in house mode
      for row in 0:0000:00010707 0:0100:00100700; do
        bytes "$mode" 00 "$(nes2_header "$mapper" "$row" 08)" 000000 05 860241 05 860242 05 860240 05 860243 05 >"$1/seed-nes2-count-$mapper-$mode-$row"
      done
    done
  done
  # 2,048 blocks of each kind; its name stands last, as to fill so long an image takes a while
  bytes 01 00 "$(nes2_header 4 0:0000:00887000 08)" 000000 "$calls" >"$1/seed-the-greatest"
}

# nes2_load_seeds CALLS TRACES: loads, most of them refused.
nes2_load_seeds() {
  local mode row mark
  for mode in 00 01; do
    for row in "${nes2_refused[@]}"; do
      bytes "$mode" 00 "$(nes2_header 4 "$row" 08)" 000000 006000 8701 8700 >"$1/nes2-load-$mode-$row"
      bytes 00 00 "$mode" "$(nes2_header 4 "$row" 08)" 006000 >"$2/nes2-load-$mode-$row"
    done
    for row in "${nes2_long[@]}"; do
      bytes "$mode" 00 "$(nes2_header 4 "$row" 08)" 000000 006000 8701 8700 >"$1/seed-nes2-long-$mode-$row"
    done
    for row in 0:0000:00010007 0:0002:00020700 0:0100:00100000 0:0101:00010700 0:0101:00E00700 0:0101:10010700; do # as long as iNES asks
      bytes "$mode" EE "$(nes2_header 2 "$row" 08)" 000000 008000 >"$1/nes2-load-short-$mode-$row"
    done
    for mark in 00 04 0C; do # no mark: the same bytes say nothing
      bytes "$mode" 00 "$(nes2_header 4 0:0101:11FF0077 "$mark")" 000000 0260005A 006000 >"$1/nes2-load-unmarked-$mode-$mark"
      bytes 00 00 "$mode" "$(nes2_header 4 0:0101:11FF0077 "$mark")" 0160005A 006000 >"$2/nes2-load-unmarked-$mode-$mark"
    done
  done
  bytes 01 00 "$(nes2_header F 0:0101:10000700 F8)" 000000 >"$1/nes2-load-mapper-255"
  bytes 01 00 "$(nes2_header 5 0:0101:10000700 08)" 000000 >"$1/nes2-load-mapper-5"
}

# shipped_beside LIBRARY TO: the shipped library with the names that calls.c has for it.
shipped_beside() {
  local name renamed=()
  for name in header load read write clock digits pages write_moved version; do renamed+=(--redefine-sym "biekkarul_$name=shipped_$name"); done
  objcopy "${renamed[@]}" "$1" "$2"
}

# target/trials/tracerun.bc: the module that tracerun is compiled from.
tracerun_module() {
  is_fresh target/trials/tracerun.bc && return
  mkdir -p target/trials && rm -f crates/tracerun/out/tracerun # so that it is compiled anew
  catch target/trials/tracerun.bc tracerun run </dev/null
}

# tracerun_object TO: the machine code of tracerun, the one that rt links.
tracerun_object() { make_program tracerun && cp crates/tracerun/out/tracerun.o "$1"; }

# tracerun_within OBJECT TO: tracerun's machine code with the names that traces.c has for its main, its reads, seeks and writes.
tracerun_within() {
  objcopy --redefine-sym main=tracerun_main --redefine-sym read=tracerun_read --redefine-sym lseek=tracerun_lseek \
    --redefine-sym write=tracerun_write "$1" "$2"
}

# What rt links a program against besides the C library.
program_parts() { local kit && kit=$(kit) && echo "$kit/c/libos_c.a" "$kit/c/liblibc_c.a"; }

# faults: the lines of faults.txt that are one.
faults() { grep -v -e '^#' -e '^$' trials/faults.txt; }

# fault: reads one of them into old and new, and puts it into a copy of the model in $work/fault. Fails at the end.
fault() {
  local line
  IFS= read -r line || return 1
  old=${line%% => *} new=${line#* => }
  OLD=$old NEW=$new awk '
    { at = index($0, ENVIRON["OLD"]) }
    at { found++; $0 = substr($0, 1, at - 1) ENVIRON["NEW"] substr($0, at + length(ENVIRON["OLD"])) }
    { print }
    END { exit found != 1 }' trials/model.h >"$work/fault/model.h" ||
    { echo "does not stand on just one line of trials/model.h: $old"; exit 1; }
}
