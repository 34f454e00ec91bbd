#!/usr/bin/env bash
# docs/PROMISES.md is true of the tree: every file, definition, theorem and must-fail edit that it names is there, and
# every function and type that any page names by its crate. Every row of it says in its third column what holds it, by one
# of five words; one that says theorem or computed names a file of proofs, one that says run a test.
set -uo pipefail
cd "$(dirname "${BASH_SOURCE[0]}")/.." || exit 2
page=docs/PROMISES.md
seen=0
lost=0

missing() { echo "$page names $1, which is not there"; lost=$((lost + 1)); }

# declares FILE NAME: a line of the file declares the name for others, with its type or as a record or a data type.
declares() {
  local name=${2//[+*.]/\\&}
  grep -qE "^ *((unfoldable|abbrev) )?pub ((record|data) $name( |\$)|$name :( |\$))" "$1"
}

# In a row, `crate specs/File.antt name, name` or `crate/proofs/File.antt name, name`; after one of these also
# `specs/File.antt name` of the same crate and `File.antt name` of the same folder. Names may be left out.
while IFS= read -r row; do
  crate=
  folder=
  while IFS= read -r cell; do
    [[ $cell == *.antt* ]] || continue
    if [[ ! $cell =~ ^((([a-z0-9_]+)[\ /])?(specs|proofs)/)?([A-Za-z0-9]+\.antt)(\ (.+))?$ ]]; then
      echo "$page has \`$cell\`, which cannot be read"
      lost=$((lost + 1))
      continue
    fi
    names=${BASH_REMATCH[7]}
    crate=${BASH_REMATCH[3]:-$crate}
    folder=${BASH_REMATCH[4]:-$folder}
    file=crates/$crate/$folder/${BASH_REMATCH[5]}
    seen=$((seen + 1))
    [ -f "$file" ] || { missing "$file (in \`$cell\`)"; continue; }
    for name in ${names//,/ }; do
      seen=$((seen + 1))
      declares "$file" "$name" || missing "$name in $file"
    done
  done < <(grep -o '`[^`]*`' <<<"$row" | tr -d '\140')
done < <(grep '`[^`]*\.antt' "$page")

# Every row: sentence, definition, one of five words, what has the name of it
declare -A rows=([contract]=0 [theorem]=0 [computed]=0 [run]=0 [page]=0)
kinds='contract theorem computed run page'
while IFS= read -r row; do
  held=$(awk -F ' *[|] *' '{ print (NF == 6 ? $4 : "") }' <<<"$row")
  if [[ $held == *[!a-z]* || " $kinds " != *" $held "* || -z $held ]]; then
    echo "$page has a row that says '$held' where one of $kinds is to stand: ${row:0:80}"
    lost=$((lost + 1))
    continue
  fi
  rows[$held]=$((rows[$held] + 1))
  case $held in
  theorem | computed) named='/proofs/' ;;
  run) named='`(tests/|rt ci )' ;;
  *) continue ;;
  esac
  [[ $row =~ $named ]] || { echo "$page says $held and names none: ${row:0:80}"; lost=$((lost + 1)); }
done < <(grep '^|' "$page" | grep -vE '^[|](---[|])+$|^[|] Sentence [|] Definition [|] Held [|] By [|]$')

# `crate/label` of a must-fail edit
while IFS= read -r label; do
  seen=$((seen + 1))
  [ -f "crates/${label%%/*}/must-fail/${label#*/}.edit" ] || missing "the edit $label"
done < <(grep -oE '`[a-z0-9_]+/[a-z0-9_]+`' "$page" | tr -d '\140')

# `tests/name.sh`
while IFS= read -r test; do
  seen=$((seen + 1))
  [ -f "$test" ] || missing "$test"
done < <(grep -oE '`tests/[^`]+`' "$page" | tr -d '\140')

# `crate::name` and `crate::Type::name`, on every page
while IFS=: read -r page path; do
  crate=${path%%::*}
  [ -d "crates/$crate/src" ] || continue # of the wrapper, or of Rust itself
  for name in $(tr ':' ' ' <<<"${path#*::}"); do
    seen=$((seen + 1))
    grep -qwE "(fn|struct|enum|type|const|mod) $name" "crates/$crate/src/"*.rt || missing "$path"
  done
done < <(grep -oHE '`[a-z0-9_]+(::[A-Za-z0-9_]+)+' README.md docs/*.md | tr -d '\140')

all=0
counted=
for kind in $kinds; do
  all=$((all + rows[$kind]))
  counted+=", $kind ${rows[$kind]}"
done
echo "the pages: $seen names looked up, $lost faults; $all rows$counted"
[ "$seen" -gt 100 ] && [ "$all" -gt 50 ] && [ "$lost" -eq 0 ]
