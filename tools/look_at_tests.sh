#!/usr/bin/env bash
# Runs the tests of all crates before any proof: the program `cases` by `rt try`, and the test functions of each crate of tests by `rt try --test`, two crates side by side.
#
#     tools/look_at_tests.sh [CRATE]..
#
# runs those of these crates, or of all. A line of each: how many cases or tests passed and how many failed, and its seconds by the clock. Below one that has a failure, or
# that did not end, stands what it told. At the end `N passed, M failed`. Nothing is proved by it: `rt test` and `rt ci` decide.
set -u
top=$(cd "$(dirname "${BASH_SOURCE[0]}")/.." && pwd)
room=$(mktemp -d)
trap 'rm -rf "$room"' EXIT
# how many seconds the tests of a crate may run
limit=1800

# look CRATE: runs its tests, and leaves what they told, and the numbers of those that passed and that failed
look() {
  local crate=$1 from=$SECONDS passed failed status words=(--test)
  if [ -f "$top/crates/$crate/args" ]; then
    mapfile -t words < <(cd "$top/crates/$crate" && find data -name '*.cases' | sort)
    words=(-- "${words[@]}")
  fi
  (cd "$top/crates/$crate" && exec rt try --seconds "$limit" "${words[@]}") > "$room/$crate.told" 2>&1 < /dev/null
  status=$?
  sed -nE 's/^(test result: .* )?([0-9]+) passed[,;] ([0-9]+) failed.*/\2 \3/p' "$room/$crate.told" | tail -n 1 > "$room/$crate.score"
  read -r passed failed < "$room/$crate.score" || { passed=0 failed=0; }
  # one that did not end, or told no number
  [ "$status" = 0 ] || [ "$failed" != 0 ] || failed=1
  if [ -f "$top/crates/$crate/args" ] && ! (cd "$top/crates/$crate/data" && find . -name '*.cases' -printf '%P\n' | sort | diff - <(sort ../args)) >> "$room/$crate.told"; then
    printf 'the file args names other files than there are\n' >> "$room/$crate.told"
    failed=$((failed + 1))
  fi
  printf '%s %s\n' "$passed" "$failed" > "$room/$crate.score"
  printf '%s: %s passed, %s failed, %s seconds\n' "$crate" "$passed" "$failed" $((SECONDS - from))
  [ "$failed" = 0 ] || sed "s/^/$crate: /" "$room/$crate.told"
}

if [ $# = 0 ]; then
  set -- $(sed -nE 's/^(cases|[a-z_]+_tests)\b.*:.*/\1/p' "$top/crates.txt")
fi
for crate in "$@"; do
  if [ ! -d "$top/crates/$crate" ]; then
    printf 'there is no crate %s\n' "$crate"
    exit 2
  fi
  while [ "$(jobs -rp | wc -l)" -ge 2 ]; do
    wait -n
  done
  look "$crate" > "$room/$crate.line" && cat "$room/$crate.line" &
done
wait
all_passed=0 all_failed=0
for crate in "$@"; do
  read -r passed failed < "$room/$crate.score"
  all_passed=$((all_passed + passed)) all_failed=$((all_failed + failed))
done
printf 'nothing was proved by this\n%s passed, %s failed\n' "$all_passed" "$all_failed"
[ "$all_failed" = 0 ] && [ "$all_passed" != 0 ]
