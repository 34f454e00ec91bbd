#!/usr/bin/env bash
# The pages are true of the tree. Of README.md, CHANGELOG.md and the pages in docs/: every relative link leads to a file. Of docs/TOUR.md also: every
# path in backticks is there, every crate that a command names is in crates.txt, every quotation stands in its file word for
# word, and every command that it shows with an answer gives that answer.
set -uo pipefail
source "$(dirname "${BASH_SOURCE[0]}")/need.bash" || exit 2
cd "$(dirname "${BASH_SOURCE[0]}")/.." || exit 2
tour=docs/TOUR.md
need_program tracerun || exit 2
links=0 paths=0 crates=0 quotes=0 answers=0 lost=0
fail() { echo "tour: $1"; lost=$((lost + 1)); }

# ---- links: [text](target), pictures included; what follows a # is a heading
for page in README.md CHANGELOG.md docs/*.md docs/changes/*.md; do
  while IFS= read -r target; do
    case $target in http://* | https://* | '#'*) continue ;; esac
    links=$((links + 1))
    [ -e "$(dirname "$page")/${target%%#*}" ] || fail "$page links to $target, which is not there"
  done < <(grep -oE '\]\([^)]+\)' "$page" | sed 's/^](//; s/)$//')
done

# ---- paths: every word in backticks that has a slash or is a file's name; what is made by a run stands in target/ or in out/
while IFS= read -r word; do
  case $word in
  target/* | */out/* | proofs/ | specs/) continue ;;
  */* | *.txt | *.md) ;;
  *) continue ;;
  esac
  paths=$((paths + 1))
  [ -e "$word" ] || fail "$tour names $word, which is not there"
done < <(grep -oE '`[^`]+`' "$tour" | tr -d '\140' | tr ' ' '\n' | sed 's/[,;:]$//')

# ---- crates: rt ci NAME, rt must-fail NAME
while read -r _ _ name; do
  crates=$((crates + 1))
  grep -qE "^$name( staticlib)?:" crates.txt || fail "$tour has a command for the crate $name, which is not in crates.txt"
done < <(grep -oE 'rt (ci|must-fail) [a-z0-9_]+' "$tour")

# ---- quotations: a fenced block after a line that ends in `FILE`: and a colon; indentation aside
flat() { sed 's/^[[:space:]]*//' "$@"; }
quoted() { # quoted FILE BLOCK
  quotes=$((quotes + 1))
  local whole
  whole=$(flat "$1")
  [[ $'\n'$whole$'\n' == *$'\n'"$(flat <<<"$2")"$'\n'* ]] || fail "$tour quotes $1 otherwise than it stands there"
}
# ---- answers: a block of the kind console, a command after '$ ' and the lines that it prints.
answered() { # answered BLOCK
  answers=$((answers + 1))
  local command=${1%%$'\n'*}
  command=${command#\$ }
  [ "$(eval "$command")" = "${1#*$'\n'}" ] || fail "$tour shows another answer than this command gives: $command"
}
file='' fence='' block='' before=''
while IFS= read -r line; do
  if [ -n "$fence" ] && [ "$line" = '```' ]; then
    if [ "$fence" = '```console' ]; then
      answered "${block%$'\n'}"
    elif [[ $before =~ \`([^\`]+)\`:$ ]]; then
      file=${BASH_REMATCH[1]}
      quoted "$file" "${block%$'\n'}"
    else
      fail "$tour has a block that names no file: ${block%%$'\n'*}"
    fi
    fence=''
  elif [ -n "$fence" ]; then
    block+=$line$'\n'
  elif [[ $line == '```'* ]]; then
    fence=$line block=''
  elif [ -n "$line" ]; then
    before=$line
  fi
done <"$tour"

echo "tests/tour.sh: $links links, $paths paths, $crates crates, $quotes quotations, $answers answers, $lost faults"
[ "$links" -gt 5 ] && [ "$paths" -gt 50 ] && [ "$crates" -gt 5 ] && [ "$quotes" -ge 4 ] && [ "$answers" -ge 2 ] && [ "$lost" -eq 0 ]
