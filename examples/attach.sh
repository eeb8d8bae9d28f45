#!/bin/sh
# Joins its standard input and output to a free pair of pipes of a server, as one client of it. Where no pair is free it waits until one is.
#   examples/attach.sh FOLDER        (the pipes FOLDER/*.in and FOLDER/*.out: examples/pairs.sh)
# A pair is leased by a lock of FOLDER/N.lock, which every process here holds, and given back once the server has closed its end. Whatever was killed before, no client gets
# an answer that is another's: each lease begins with a session of no line, and what that one is told, as the rest of one before, is thrown away.
# A pair at which that takes more than a second is passed over: its server may wait for a version (`until`) for a client that has gone, for as long as its patience is.
# Where none answers for a minute, or no server is there for ten seconds, it says so and ends with status 1.
set -eu
fail() { echo "attach.sh: $1" >&2; exit 1; }
[ $# = 1 ] || { echo "usage: examples/attach.sh FOLDER" >&2; exit 2; }
folder=$1
trap '' PIPE

# The session of no line: what one before left is read to its end, and the server has closed both pipes behind it.
answers() {
    timeout --foreground 1 sh -c 'exec 7>"$1.in" 8<"$1.out" 7>&-; exec cat <&8' sh "$1" </dev/null >/dev/null
}

# Whether a server has any of the pipes open, or waits there for a client.
is_served() {
    for input in "$folder"/*.in; do
        ! dd if=/dev/null of="$input" oflag=nonblock conv=nocreat,notrunc status=none 2>/dev/null || return 0
    done
    return 1
}

# The first in the queue looks for a free pair; the others wait for their turn.
[ -d "$folder" ] || fail "there is no folder $folder"
tries=0
exec 5>"$folder/turn.lock"
flock 5
while :; do
    is_leased=no
    for input in "$folder"/*.in; do
        [ -p "$input" ] || fail "no pairs of pipes in $folder"
        pair=${input%.in}
        exec 9>"$pair.lock"
        flock -n 9 || { is_leased=yes; continue; }
        flock -u 5
        ! answers "$pair" || break 2
        exec 9>&-
        flock 5
        tries=$((tries + 1))
        [ "$tries" -lt 10 ] || is_served || fail "no server is at the pipes in $folder"
    done
    [ "$is_leased" = yes ] || [ "$tries" -lt 60 ] || fail "no pair of pipes in $folder answers"
    sleep 0.02
done
exec 5>&-

exec 6<&0 7>"$pair.in" 8<"$pair.out"
cat <&6 >&7 8<&- 2>/dev/null &
lines=$!
exec 6<&- 7>&- </dev/null
cat <&8 2>/dev/null || true
# The client has gone, or the server has closed the pair: no line goes in any more, and what still comes out is read to its end.
{ kill -9 "$lines" || true; wait "$lines" || true; } 2>/dev/null
cat <&8 >/dev/null
