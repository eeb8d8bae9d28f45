#!/usr/bin/env bash
# Runs every word of the program with each of its standard streams closed, and compares a store, byte for byte, before and after. Needs a built program.
set -u
. "$(dirname "${BASH_SOURCE[0]}")/store_of_six.sh"
cp six.store before.store
wrong=0

# tries NAME WANTED-STATUS STREAM WORDS..: the status is as wanted (with the output closed 1, if the word prints), and the store is as before
tries() {
  local name=$1 wanted=$2 stream=$3
  shift 3
  local status
  case $stream in
    0) "$program" "$@" > out 2> err <&- ;;
    1) "$program" "$@" 2> err < six.txt >&- ;;
    2) "$program" "$@" > out < six.txt 2>&- ;;
  esac
  status=$?
  local kept=same
  cmp -s six.store before.store || kept=CHANGED
  [ "$kept" = same ] && [ "$status" = "$wanted" ] || wrong=1
  printf '%-10s stream %s closed: status %s, store %s\n' "$name" "$stream" "$status" "$kept"
}

for stream in 0 1 2; do
  printed=0
  [ "$stream" = 1 ] && printed=1
  tries ask "$printed" "$stream" ask six.store six.p2p
  tries check "$printed" "$stream" check six.store
  tries show "$printed" "$stream" show six.store 7
  mkdir texts
  tries export "$printed" "$stream" export six.store texts
  rm -r texts
  tries copy "$printed" "$stream" copy six.store copied.store
  cmp -s copied.store before.store || { wrong=1; echo "copy: another store"; }
  rm -f copied.store
  tries serve "$printed" "$stream" serve six.store
  tries once "$printed" "$stream" once six.gr 1 6
  tries route "$printed" "$stream" route six.gr 1 6
  tries batch "$printed" "$stream" batch six.gr six.p2p
  tries reach "$printed" "$stream" reach six.gr 1
  tries rehearse "$printed" "$stream" rehearse six.gr six.script
  tries help "$printed" "$stream" --help
  tries misuse 2 "$stream" look
  tries fault 1 "$stream" ask none.store six.p2p
  tries create "$printed" "$stream" create new.store six.gr six.ss
  cmp -s new.store before.store || { wrong=1; echo "create: another store"; }
  rm -f new.store
done
# The joint form reads an input that is closed as an empty text: fault 2 of its network.
tries joint 1 0
tries joint 1 1
tries joint 0 2
# apply changes the store: with the output closed its first commands are durable, and not told.
for stream in 0 1 2; do
  cp before.store applied.store
  case $stream in
    0) "$program" apply applied.store six.commands > out 2> err <&- ;;
    1) "$program" apply applied.store six.commands 2> err >&- ;;
    2) "$program" apply applied.store six.commands > out 2>&- ;;
  esac
  status=$?
  answer=$("$program" ask applied.store six.p2p | head -1)
  printf '%-10s stream %s closed: status %s, then %s\n' apply "$stream" "$status" "$answer"
  [ "$answer" = 'v 2' ] || wrong=1
done
exit "$wrong"
