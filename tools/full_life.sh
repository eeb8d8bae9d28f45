#!/usr/bin/env bash
# A life of 16,777,216 commands, the most that one opening takes: one more is refused with 62, all others are kept, and the next opening takes it. Then a life of
# groups of 253: the group with which its commands would be more is refused, and a smaller one is taken behind it. Then the same life of a server, which answers what stands in its
# standard input and ends by itself, with status 3, though that is still open. Needs a built program, 2 GB of memory and 0.5 GB of disk.
set -u
. "$(dirname "${BASH_SOURCE[0]}")/store_of_six.sh"
fail() { echo "$1"; exit 1; }

most=16777216
yes 'set 8 4' | head -n $((most + 1)) > commands
"$program" apply six.store commands > told || fail "apply ended with $?"
cmp -s told <(seq -f 'ok %.0f' 1 $most; echo 'no 62') || fail "told otherwise: $(tail -n 2 told | tr '\n' ' ')"
echo 'set 8 5' > one
[ "$("$program" apply six.store one)" = "ok $((most + 1))" ] || fail "the next life takes none"
[ "$("$program" ask six.store six.p2p | head -n 1)" = "v $((most + 1))" ] || fail "the store has another version"

# 66,313 groups of 253 have 16,777,189 commands; with one more there would be 16,777,442, and with one of 27 there are 16,777,216.
version=$((most + 1))
groups=66313
awk -v groups=$groups 'BEGIN { for (g = 0; g <= groups; g++) { print "begin"; for (i = 0; i < 253; i++) print "set 8 4"; print "end" } print "begin"; for (i = 0; i < 27; i++) print "set 8 4"; print "end"; print "set 8 4" }' > groups
seq -f 'ok %.0f' $((version + 1)) $((version + groups)) > want
{ echo 'no 62'; echo "ok $((version + groups + 1))"; echo 'no 62'; } >> want
"$program" apply six.store groups > told || fail "apply of groups ended with $?"
cmp -s told want || fail "groups told otherwise: $(tail -n 3 told | tr '\n' ' ')"

# A server takes as many, answers what was sent behind them, tells why it ends, and the next one takes commands again. Its standard input has no end.
version=$((version + groups + 1))
seq -f 'ok %.0f' $((version + 1)) $((version + groups)) > want
{ echo 'no 62'; echo "ok $((version + groups + 1))"; echo 'no 62'; echo "v $((version + groups + 1))"; echo "v $((version + groups + 1))"; echo 'd 1 6 14'; } >> want
printf 'wait\ndist 1 6\n' >> groups
mkfifo input
"$program" serve six.store > told 2> err < input & server=$!
exec 3> input
cat groups >&3
wait "$server"
status=$?
exec 3>&-
[ "$status" = 3 ] || fail "the server ended with $status"
cmp -s told want || fail "groups told otherwise by the server: $(tail -n 6 told | tr '\n' ' ')"
[ "$(cat err)" = 'roadmark: 62 HistoryFull' ] || fail "told on standard error: $(cat err)"
[ "$("$program" serve six.store < one)" = "ok $((version + groups + 2))" ] || fail "the next server takes none"
echo "$most commands of one life, one refused with 62, and the next life goes on; of groups the one that passes the limit is refused, and a smaller one taken; a server ends behind them with status 3"
