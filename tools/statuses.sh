#!/usr/bin/env bash
# Runs the program to each kind of end, and compares the status with which it ends and the fault line that it tells. Needs a built program.
set -u
. "$(dirname "${BASH_SOURCE[0]}")/store_of_six.sh"
wrong=0
exec 3>&1

# ends WANTED-STATUS WANTED-FAULT-LINE WORDS..: with the standard input and output of the caller; without a fault line nothing is told on standard error
ends() {
  local status=$1 line=$2
  shift 2
  "$program" "$@" 2> err
  local seen=$?
  if [ "$seen" != "$status" ] || { [ "$line" != any ] && [ "$(cat err)" != "$line" ]; }; then
    wrong=1
    printf 'WRONG: status %s, %s: %s\n' "$seen" "$(cat err)" "${*@Q}" >&3
  else
    printf 'status %s, %s: %s\n' "$seen" "${line:-no fault line}" "${*@Q}" >&3
  fi
}

# fails WANTED-FAULT-LINE WANTED-REASON WORDS..: with status 1, and the reason behind the fault line
fails() {
  local lines=$1$'\n'"roadmark: $2"
  shift 2
  ends 1 "$lines" "$@"
}

# 0: all is done, help was asked for, or commands and queries were refused
for words in 'once six.gr 1 6' 'once six.gr 1 9' 'route six.gr 1 6' 'route six.gr 1 9' 'batch six.gr six.p2p' 'batch six.gr --from six.ss --to six.ss' 'reach six.gr 1 --within 10' 'reached six.gr 9' 'ask six.store --from six.ss --to six.ss' 'rehearse six.gr six.script' 'ask six.store six.p2p' 'ask six.store six.p2p --routes' 'check six.store' 'show six.store 7' 'show six.store 4 6' --help 'help serve' --version; do
  ends 0 '' $words > out
done
ends 0 '' < six.txt > out
cp six.store other.store
ends 0 'roadmark: six.commands: line 5: 22 AlreadyClosed' apply other.store six.commands > out
ends 0 '' serve other.store > out < <(printf 'close 7\nclose 7\nhello\n')
mkdir copies
ends 0 '' serve other.store --copies copies > out < <(printf 'copy a\ncopy a\ncopy a.b\n')
mkfifo lines answers
ends 0 '' serve other.store --asking lines answers > out < <(printf 'dist 1 6\n')
ends 0 '' create new.store six.gr six.ss > out
cp "$top/examples/old.store" .
ends 0 '' migrate old.store moved.store --room 10 > out
ends 0 '' upgrade six.store six.gr six.gr upgraded.store > out
ends 0 '' copy six.store copied.store --room 10 --journal 2 > out
mkdir texts
ends 0 '' export six.store texts > out
# 1: a fault of a text, a file, a store, the output, the input of a session
printf 'p sp 2 1\na 1 2 -5\n' > bad.gr
head -c 4000 six.store > short.store
ends 1 'roadmark: bad.gr: line 2: 7 LengthRange' once bad.gr 1 2 > out
fails 'roadmark: none.gr: line 0: 10 Read' 'none.gr: there is no such file or folder' once none.gr 1 2 > out
fails 'roadmark: a\nb\u{1b}: line 0: 10 Read' 'a\nb\u{1b}: there is no such file or folder' once $'a\nb\e' 1 2 > out
fails 'roadmark: 46 NotEmpty' 'six.store: it is not empty' create six.store six.gr six.ss > out
fails 'roadmark: 46 NotEmpty' 'six.store: it is not empty' migrate old.store six.store > out
fails 'roadmark: 41 WrongFormat' 'old.store: it is a store of another format' ask old.store six.p2p > out
fails 'roadmark: 41 WrongFormat' 'six.store: it is a store of another format' migrate six.store none.store > out
printf 'p sp 6 1\na 2 1 17\n' > other.gr
fails 'roadmark: 52 OtherNetwork' 'other.gr: the store was not made from it' upgrade six.store other.gr six.gr none.store > out
fails 'roadmark: 46 NotEmpty' 'other.store: it is not empty' upgrade six.store six.gr six.gr other.store > out
fails 'roadmark: none.store: line 0: 10 Read' 'none.store: there is no such file or folder' upgrade none.store six.gr six.gr new2.store > out
fails 'roadmark: 46 NotEmpty' 'moved.store: it is not empty' copy six.store moved.store > out
fails 'roadmark: 41 WrongFormat' 'old.store: it is a store of another format' copy old.store none.store > out
fails 'roadmark: 9 TooLarge' '--room: it may be from the number of arcs to 67108864' copy six.store none.store --room 7 > out
fails 'roadmark: six.store: line 0: 10 Read' 'six.store: it is in use by another process' copy six.store six.store > out
fails 'roadmark: 9 TooLarge' '--room: it may be from the number of arcs to 67108864' create none.store six.gr six.ss --room 7 > out
fails 'roadmark: 40 NotAStore' 'short.store: it is not a store' check short.store > out
fails 'roadmark: 40 NotAStore' 'short.store: it is not a store' show short.store 7 > out
fails 'roadmark: 46 NotEmpty' 'texts/network.gr: it is there already' export six.store texts > out
fails 'roadmark: none: line 0: 10 Read' 'none: there is no such file or folder' export six.store none > out
fails 'roadmark: none: line 0: 10 Read' 'none: there is no such file or folder' serve six.store --copies none > out
fails 'roadmark: six.gr: line 0: 10 Read' 'six.gr: it is no named pipe' serve six.store --asking lines six.gr > out
fails 'roadmark: 12 Write' 'standard output: a write failed: no space left on device' once six.gr 1 6 > /dev/full
ends 1 'roadmark: 12 Write' --help > /dev/full
ends 1 'roadmark: 12 Write' serve six.store > /dev/full < <(printf 'dist 1 6\n')
ends 1 'roadmark: 10 Read' serve six.store < . > out
# 2: words that are not understood, or are no text
ends 2 any look > out
ends 2 any serve six.store --journal 3 > out
ends 2 any once $'\xff' 1 2 > out
ends 2 any serve six.store --asking a > out
ends 2 any serve six.store a b --asking b c > out
ends 2 any batch six.gr --from six.ss > out
ends 2 any batch six.gr six.p2p --from six.ss --to six.ss > out
ends 2 any ask six.store --to six.ss > out
ends 2 any batch six.gr --from - --to - > out < six.ss
exit "$wrong"
