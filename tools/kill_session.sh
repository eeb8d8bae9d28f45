#!/usr/bin/env bash
# Kills the program (-9) at a hundred moments of a session, and asks the store each time: what was told is there, and at most one command or group more. Both arcs that
# each group sets have one length, so no group is there in part. Needs a built program.
set -u
. "$(dirname "${BASH_SOURCE[0]}")/store_of_six.sh"
# The lines of a session that would not end by itself soon. Two arcs lead from node 1 to nodes 2 and 3, and no other arc is there.
printf 'p sp 3 2\na 1 2 0\na 1 3 0\n' > two.gr
printf 'p aux sp ss 0\n' > none.ss
printf 'p aux sp p2p 2\nq 1 2\nq 1 3\n' > two.p2p
"$program" create two.store two.gr none.ss > /dev/null || exit 1
for length in $(seq 1 20000); do
  printf 'begin\nset 1 %s\nset 2 %s\nend\ndist 1 2\nwait\n' "$length" "$length"
done > lines

told=0
most=0
for kill in $(seq 1 100); do
  "$program" serve two.store < lines > answers &
  session=$!
  sleep "$(printf '0.%03d' $((kill * 7 % 300)))"
  kill -9 "$session" 2> /dev/null
  wait "$session" 2> /dev/null
  # What was told last, now or before; an answer that was cut off was not told.
  last=$(sed -n 's/^ok \([0-9]*\)$/\1/p' answers | tail -1)
  [ -n "$last" ] && told=$last
  "$program" ask two.store two.p2p > asked
  version=$(sed -n 's/^v //p' asked)
  if [ -z "$version" ] || [ "$version" -lt "$told" ] || [ "$version" -gt $((told + 1)) ]; then
    echo "kill $kill: told $told, and the store opens with ${version:-nothing}"
    exit 1
  fi
  if [ "$(sed -n 's/^d 1 2 //p' asked)" != "$(sed -n 's/^d 1 3 //p' asked)" ]; then
    echo "kill $kill: half of a group is there: $(tr '\n' ' ' < asked)"
    exit 1
  fi
  [ "$version" -gt "$told" ] && most=$((most + 1))
  told=$version
done
echo "100 kills, $told groups: all that was told is there, whole, and $most times one group more"
