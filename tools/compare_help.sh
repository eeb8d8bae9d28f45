#!/usr/bin/env bash
# Compares the subcommands, arguments and options that the program's help names with those of the man page, and sees that each help has an example.
#   tools/compare_help.sh [PROGRAM]
set -u
top=$(cd "$(dirname "${BASH_SOURCE[0]}")/.." && pwd)
program=$(realpath "${1:-$top/crates/roadmark/out/roadmark}")
page=$top/docs/roadmark.1
wrong=0

# compare WHAT HELP MAN: two lists, one name a line, from the help and from the man page.
compare() {
  if [ "$(sort -u <<< "$2")" != "$(sort -u <<< "$3")" ]; then
    wrong=1
    echo "$1: help names" $2 "and the man page names" $3
  fi
}

# The options in a text, each with the name of its value; its flags; the arguments of a usage line.
options() { grep -o -e '--[a-z]\+ <\?[A-Z]\+>\?' | tr -d '<>' | sort -u; }
flags() { grep -o -e '--verbose' -e '--routes' | sort -u; }
arguments() { sed 's/\[[^]]*\]//g' | grep -o '\<[A-Z][A-Z0-9]*\>'; }

# A part of the man page, without its fonts.
part() { sed -n "/^\.SH $1/,/^\.SH $2/p" "$page" | sed 's/\\f[RIB]//g'; }
synopsis=$(part SYNOPSIS DESCRIPTION | sed -n 's/^\.B roadmark //p')

words=$("$program" --help | sed -n '/^Commands:/,/^$/ s/^  \([a-z]\+\).*/\1/p')
compare words "$words" "$(part SUBCOMMANDS OPTIONS | grep -A1 '^\.TP' | sed -n 's/^\.B \([a-z]\+\)$/\1/p')"
compare options "$(for word in $words; do "$program" help "$word"; done | options)" "$(part OPTIONS ANSWERS | sed -n 's/^\.BI "\(--[a-z]* \)" "\?\([A-Z]*\).*$/\1\2/p')"
compare 'no word' "$("$program" --help | options)" "$(grep '^\[' <<< "$synopsis" | options)"
"$program" --help | grep -q '^Example: roadmark' || { wrong=1; echo "help has no example"; }

for word in $words; do
  [ "$word" = help ] && continue
  help=$("$program" help "$word")
  line=$(grep "^$word " <<< "$synopsis")
  compare "options of $word" "$(options <<< "$help")" "$(options <<< "$line")"
  compare "flags of $word" "$(flags <<< "$help")" "$(flags <<< "$line")"
  compare "arguments of $word" "$(grep '^Usage:' <<< "$help" | arguments)" "$(arguments <<< "$line")"
  [ "$help" = "$("$program" "$word" --help)" ] || { wrong=1; echo "$word: two helps"; }
  grep -q "^Example: .*roadmark $word " <<< "$help" || { wrong=1; echo "$word: its help has no example"; }
done
[ "$wrong" = 0 ] && echo "help and the man page name the same" $(wc -w <<< "$words") "words, with their arguments and options"
exit "$wrong"
