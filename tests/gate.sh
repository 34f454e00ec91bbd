#!/usr/bin/env bash
# The gate sees what it must not pass: in a repository of its own, with stand-ins for rt, for lib/make.sh and for every test,
# each fault put there is named, and the closing lines count it.
set -uo pipefail
cd "$(dirname "${BASH_SOURCE[0]}")/.." || exit 2
work=$(mktemp -d)
trap 'rm -rf "$work"' EXIT
tried=0
failed=0

# A repository in which all is well.
make_repository() {
  rm -rf "$work/repository"
  mkdir -p "$work/repository"/{.ci,tests,lib} "$work/bin"
  cp .ci/run "$work/repository/.ci"
  cp tests/need.bash "$work/repository/tests"
  cp lib/modules.bash "$work/repository/lib"
  cat >"$work/repository/lib/make.sh" <<'END'
folder=target/staticlib/$(uname -m)-linux
mkdir -p "$folder" && echo "made here" >"$folder/libbiekkarul.a"
END
  local test
  for test in tests/*.sh; do
    # a stand-in passes only where it is given the library that the gate has made
    echo '[ "$(cat "$BIEKKARUL_LIB/libbiekkarul.a")" = "made here" ] && echo looked' >"$work/repository/$test"
  done
  cat >"$work/bin/rt" <<'END'
#!/usr/bin/env bash
case $* in
ci) echo "rt: ok; handles allowed: none; must-fail edits: 3 refused; all was done"; echo "5 passed, 0 failed" ;;
*) exit 2 ;;
esac
END
  chmod +x "$work/bin/rt"
}

# gate STATUS LINE LAST: in the repository as it is, the gate ends with this status, says this line, and ends with this one.
gate() {
  local log got
  tried=$((tried + 1))
  log=$(cd "$work/repository" && PATH="$work/bin:$PATH" BIEKKARUL_LIB=/another BIEKKARUL_PROVE=1 bash .ci/run 2>&1)
  got=$?
  [ "$got" -eq "$1" ] && grep -qxF -- "$2" <<<"$log" && [ "$(tail -n 1 <<<"$log")" = "$3" ] && return
  echo "gate: status $got, not $1, or not the lines '$2' and '$3':"
  tail -n 5 <<<"$log"
  failed=$((failed + 1))
}

tests=(tests/*.sh)
all=$((${#tests[@]} + 6)) # with what rt ci counts, and the library
in_all() { echo "$((all - 1)) passed, 1 failed"; }
there=$work/repository/tests

make_repository
gate 0 "0 skipped" "$all passed, 0 failed"
echo 'echo "skipped: no such machine"' >"$there/differential.sh"
gate 0 "skipped: tests/differential.sh" "$((all - 1)) passed, 0 failed"
make_repository
rm "$there/c.sh"
gate 1 "failed: tests/c.sh is not there, or is empty" "$(in_all)"
: >"$there/c.sh"
gate 1 "failed: tests/c.sh is not there, or is empty" "$(in_all)"
echo true >"$there/c.sh"
gate 1 "failed: tests/c.sh says nothing of what it did" "$(in_all)"
echo 'echo looked; exit 3' >"$there/c.sh"
gate 1 "failed: tests/c.sh" "$(in_all)"
make_repository
echo 'echo looked' >"$there/unnamed.sh"
gate 1 "failed: tests/unnamed.sh is not named in .ci/run" "$all passed, 1 failed"
make_repository
sed -i 's/^ci) .*/ci) echo "4 passed, 1 failed"; exit 1 ;;/' "$work/bin/rt"
gate 1 "4 passed, 1 failed" "$(in_all)"
make_repository
sed -i 's/^ci) .*/ci) echo "5 passed, 0 failed"; exit 1 ;;/' "$work/bin/rt"
gate 1 "5 passed, 0 failed" "$all passed, 1 failed"
make_repository
sed -i 's/^ci) .*/ci) echo "rt: ok"; echo "killed" ;;/' "$work/bin/rt"
gate 1 "failed: rt ci ended without its closing line (status 0)" "$((all - 5)) passed, 1 failed"
make_repository
sed -i 's/^ci) .*/ci) echo "rt: ok; handles allowed: none; must-fail edits: 3 refused, 1 bad; all was done"; echo "5 passed, 0 failed" ;;/' "$work/bin/rt"
gate 1 "failed: rt ci has a bad edit: rt: ok; handles allowed: none; must-fail edits: 3 refused, 1 bad; all was done" "$all passed, 1 failed"
make_repository
sed -i 's/^ci) .*/ci) echo "5 passed, 0 failed" ;;/' "$work/bin/rt"
gate 1 "failed: rt ci has no line 'rt: ok'" "$all passed, 1 failed"
make_repository
echo 'exit 1' >"$work/repository/lib/make.sh"
gate 1 "failed: the library (lib/make.sh)" "5 passed, $((${#tests[@]} + 1)) failed"

echo "gate: $tried runs tried, $failed not as they must be"
[ "$failed" -eq 0 ]
