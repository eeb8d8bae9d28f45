#!/usr/bin/env bash
# Turns a feed of changes on standard input into `set` lines of a session. A line of the feed is FROM,TO,SECONDS: two nodes, and a decimal number as 12 or 0.4. Lengths are tenths of a second.
#   examples/feed.sh GR STORE < feed.csv        (GR is the text of which STORE was made)
# A line that is none changes nothing, and is told on standard error with its number, as a change is that the server refuses; those behind it go on. Status 1: the server can't start, or has ended.
set -eu
[ $# = 2 ] || { echo "usage: examples/feed.sh GR STORE < feed.csv" >&2; exit 2; }
top=$(cd "$(dirname "$0")/.." && pwd)
# A server that has gone is told, and does not end the script without a word.
trap '' PIPE

# The numbers of the arcs between two nodes: their places among the lines `a` of the text.
declare -A arcs
number=0
while read -r word from to _ || [ -n "${word:-}" ]; do
  if [ "$word" = a ]; then
    number=$((number + 1))
    arcs[$from,$to]+=" $number"
  fi
done < "$1"

# Behind the last answer of the server comes a line that tells its status.
coproc server {
  status=0
  "$top/roadmark" serve "$2" || status=$?
  printf '\nended %s\n' "$status"
  cat > /dev/null
}
exec {to_server}>&"${server[1]}" {from_server}<&"${server[0]}"

# Sends a line, and reads its answer into `answer`.
tell() {
  printf '%s\n' "$1" >&"$to_server" 2> /dev/null || true
  IFS= read -r answer <&"$from_server" || answer=
  [[ $answer =~ ^(ok|no|v)\ [0-9]+$ ]] && return
  [ -n "$answer" ] || IFS= read -r answer <&"$from_server" || answer=
  echo "feed: $2: the server has ended${answer/ended/ with status}" >&2
  exit 1
}

# Takes the fields of a line into `from`, `to` and `length`, or says what is wrong with it.
take() {
  local decimal='^0*([0-9]{0,17})(\.([0-9]*))?$' node='^0*([0-9]{1,18})$' tenths
  [[ $1 =~ ^[^,]*,[^,]*,[^,]*$ ]] || { fault="it has not three fields"; return 1; }
  IFS=, read -r from to seconds <<< "${1//[[:blank:]]/}"
  [ -n "$from" ] && [ -n "$to" ] && [ -n "$seconds" ] || { fault="a field is missing"; return 1; }
  [[ $from =~ $node ]] && from=${BASH_REMATCH[1]} && [[ $to =~ $node ]] && to=${BASH_REMATCH[1]} || { fault="a node is no number"; return 1; }
  [[ $seconds != -* ]] || { fault="the seconds are negative"; return 1; }
  [[ ! $seconds =~ ^0*[1-9][0-9]{17,}(\.[0-9]*)?$ ]] || { fault="the seconds are out of range"; return 1; }
  [[ $seconds =~ $decimal && $seconds =~ [0-9] ]] && [[ $seconds =~ $decimal ]] || { fault="the seconds are no decimal number"; return 1; }
  tenths=${BASH_REMATCH[3]}00
  length=$((10#0${BASH_REMATCH[1]} * 10 + 10#${tenths:0:1} + (${tenths:1:1} >= 5)))
  [ "$length" != 0 ] || [[ ! $seconds =~ [1-9] ]] || { fault="the seconds are less than half a tenth"; return 1; }
}

tell wait "$2 can't be served (is it in use by another program?)"
line=0
while IFS= read -r text || [ -n "${text:-}" ]; do
  line=$((line + 1))
  text=${text%$'\r'}
  [ -n "$text" ] || continue
  if ! take "$text"; then
    echo "line $line: $text: $fault" >&2
    continue
  fi
  if [ -z "${arcs[$from,$to]:-}" ]; then
    echo "$from to $to: no such road" >&2
    continue
  fi
  for arc in ${arcs[$from,$to]}; do
    tell "set $arc $length" "line $line: $text may have been carried out, or not"
    told="$from to $to: arc $arc takes $length: $answer"
    case $answer in ok*) echo "$told" ;; *) echo "$told" >&2 ;; esac
  done
done

printf 'quit\n' >&"$to_server"
exec {to_server}>&-
while IFS= read -r answer <&"$from_server"; do
  [ -z "$answer" ] || exit "${answer#ended }"
done
