#!/usr/bin/env bash
# Where the code could still have an older form, by the points of docs/DESIGN-PASS.md: for each point how many places of a
# tree's src/ (for point 8 of its proofs/) its patterns find, and with -v each of them.
#   tools/places.sh [-v] [TREE]
# A pattern finds forms, not faults: what is found and stays has its reason on that page.
set -uo pipefail
verbose=
[ "${1:-}" = -v ] && { verbose=1; shift; }
cd "${1:-$(dirname "${BASH_SOURCE[0]}")/..}" || exit 2

sources() { find crates -path '*/src/*.rt' -not -path '*/out/*' | sort; }

# count POINT WHAT: of the lines that come in
count() {
  local found
  found=$(cat)
  printf '%s  %-62s %4s\n' "$1" "$2" "$(grep -c . <<<"$found")"
  [ -z "$verbose" ] || [ -z "$found" ] || sed 's/^/     /' <<<"$found"
}

# lines PATTERN: with file and number
lines() { sources | xargs grep -nHE "$1" | sed 's/: */: /2'; }

# shaped FIELDS: enums of at most three variants, one of them at least with a value
shaped() {
  sources | xargs awk '
    FNR == 1 { inside = 0 }
    /^(pub )?enum / { name = FILENAME ":" FNR ": " $0; variants = values = 0; inside = 1; next }
    inside && /^}/ { inside = 0; if (variants <= 3 && values) print name }
    inside && /^    [A-Z]/ { variants++; if (/\(/) values++ }'
}

# holding FIELDS: structs with a field of one of these names
holding() {
  sources | xargs awk -v fields="^    (pub )?($1):" '
    FNR == 1 { inside = 0 }
    /^(pub )?struct .*{/ { name = FILENAME ":" FNR ": " $0; inside = 1; hit = 0; next }
    inside && /^}/ { inside = 0; if (hit) print name }
    inside && $0 ~ fields { hit = 1 }'
}

# taking PARAMETERS..: functions that have all of these parameters
taking() {
  sources | xargs awk -v names="$*" '
    function flush() { n = split(names, name, " "); hit = 1
      for (i = 1; i <= n; i++) if (head !~ "[(, ]" name[i] ": ") hit = 0
      if (hit && head != "") print at; head = "" }
    FNR == 1 { head = ""; inside = 0 }
    /^ *(pub )?(extern "C" )?fn / { head = ""; inside = 1; at = FILENAME ":" FNR ": " $0 }
    inside { head = head " " $0 }
    inside && /(ensures|requires|\{)/ { inside = 0; flush() }'
}

shaped | count 1 'enums of the shape of Option or Result'
holding 'answer|mirrors|yes|good|fits' | count 1 'structs with an answer or a flag beside a value'
lines '^const (HOUSE|READ|WRITE|CLOCK|REFUSED|NO_CALL)\b|\bkind == |fn (number|numbered|letter|mirroring_of|mirroring_digit)\b' | count 1 'numbers for kinds, and what makes them'
lines 'struct Bank[0-9]+K|fn (prg|chr)_[0-9]+k\b|fn (offset|start)\(self' | count 2 'a type or function for each size of bank'
lines 'fn ([a-z]+_number|fill_[a-z]+|copy[a-z_]*|tell_?[a-z]*|[a-z]+_row|word|bytes_of_word|(lower|upper)_(prg|chr)_bank)\b' | count 2 'functions that differ in a type or a step'
lines '(pub )?struct (Wrote|Moved|Ticked|Clocked|Written|Loaded|Played|Called|Step|Run)\b' | count 2 'structs of what a call leaves and answers'
lines 'cart_is_kept\(.*self|states::cart_is_kept\(' | count 2 'the judgement of a state, written out'
lines 'for [a-z_]+ in 0 ?\.\.' | count 3 'loops over numbers from 0'
lines 'fn (same[a-z_0-9]*|is|is_start|is_unused|is_headers)\(' | count 4 'equality'
lines 'fn (number|numbered|letter|words_of|board_in|[a-z0-9]+_in|mirroring_of|mirroring_digit|big_[0-9]|two_[a-z]+|four_at|fields_of|word|bytes_of_word|digit|five_digits|hex_digit)\(' | count 4 'conversion and printing'
lines 'requires \{ *\(?(Room|page <|count ≤|event_count|[ai]t? \+ 8)' | count 5 'clauses that say one fact'
taking image prg chr | count 5 'functions that take the image and both RAMs'
taking text at | count 6 'functions that take a buffer and a place in it'
taking file image | count 6 'functions that take the file and the image'
lines 'if kind ==|fn (fill_reads|fill_writes|run_loaded)\b' | count 7 'steps chosen by a number, or by a twin'
find crates -path '*/proofs/*' -name Proof.antt -not -path '*/out/*' | sort | count 8 'proofs that walk the code by hand'
