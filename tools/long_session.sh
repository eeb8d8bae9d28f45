#!/usr/bin/env bash
# A session of ten thousand commands over a store's file, beside which nobody else opens the file; after it the store is asked. Needs a built program.
set -u
. "$(dirname "${BASH_SOURCE[0]}")/store_of_six.sh"
fail() { echo "$1"; exit 1; }

# Arc 8 gets the length of the command's number, at last 10,000; after that the session waits until that is shown, and asks.
{ for length in $(seq 1 10000); do echo "set 8 $length"; done; echo wait; echo 'dist 1 6'; echo quit; } > lines
{ seq -f 'ok %.0f' 1 10000; echo 'v 10000'; echo 'v 10000'; echo 'd 1 6 15'; } > wanted
mkfifo to
"$program" serve six.store < to > answers &
session=$!
exec 3> to
head -5000 lines >&3
until [ "$(wc -l < answers)" -ge 5000 ]; do sleep 0.05; done
# The session is open, and holds the file alone.
in_use='roadmark: six.store: line 0: 10 Read'
for words in "ask six.store six.p2p" "apply six.store six.commands" "check six.store" "serve six.store"; do
  # shellcheck disable=SC2086
  said=$("$program" $words < /dev/null 2>&1) && fail "$words: not refused beside a session"
  # What may stand behind the fault line says why.
  [ "${said%%$'\n'*}" = "$in_use" ] || fail "$words: $said"
done
tail -n +5001 lines >&3
exec 3>&-
wait "$session" || fail "the session ended with $?"
cmp answers wanted || exit 1
version=$("$program" ask six.store six.p2p | head -1)
[ "$version" = 'v 10000' ] || fail "the store opens with $version"
echo "10000 commands in one session, each told in its turn, all there after it; nobody else opened the file beside it"
