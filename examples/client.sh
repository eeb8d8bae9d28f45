#!/usr/bin/env bash
# A client of `roadmark serve`: closes an arc, waits until that is shown, asks, and reads refusals.
#   examples/client.sh STORE        (made by: ./roadmark create six.store examples/six.gr examples/six.ss)
set -eu
[ $# = 1 ] || { echo "usage: examples/client.sh STORE" >&2; exit 2; }
top=$(cd "$(dirname "$0")/.." && pwd)
store=$1

coproc server { "$top/roadmark" serve "$store"; }
# Kept, since bash forgets `server_PID` as soon as the server has ended.
server_is=$server_PID
exec {to}>&"${server[1]}" {from}<&"${server[0]}"

# Sends one line, and reads one line of its answer into `answer`.
tell() { printf '%s\n' "$1" >&"$to"; hear; }
hear() { IFS= read -r answer <&"$from"; }

# A command: `ok N` once it is durable as version N, or `no CODE`.
change() {
  tell "$1"
  case $answer in
    ok\ *) echo "$1: durable as version ${answer#ok }" ;;
    no\ *) echo "$1: refused, code ${answer#no }" ;;
  esac
}

# A query: `v V`, then its answer line; or `no CODE` alone, where it has no view.
ask() {
  tell "$1"
  case $answer in
    v\ *) version=${answer#v }; hear; echo "$1: $answer (version $version)" ;;
    no\ *) echo "$1: refused, code ${answer#no }" ;;
  esac
}

ask 'dist 1 6'
change 'close 7'
change 'close 7'
tell wait
echo "shown: $answer"
ask 'dist 1 6'
ask 'dist 1 9'
change 'reopen 7'

printf 'quit\n' >&"$to"
wait "$server_is"
