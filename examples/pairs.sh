#!/bin/sh
# Makes pairs of named pipes in a folder, where they are not there yet, and prints their names in the order that `roadmark serve` takes.
#   roadmark serve STORE $(examples/pairs.sh FOLDER COUNT)
set -eu
usage() { echo "usage: examples/pairs.sh FOLDER COUNT: COUNT from 1 to 60, no blank in FOLDER" >&2; exit 2; }
[ $# = 2 ] || usage
# A name with a blank would be two words of `serve`.
case $1 in *[[:space:]]*) usage ;; esac
case $2 in [1-9] | [1-5][0-9] | 60) ;; *) usage ;; esac
mkdir -p "$1"
for pair in $(seq "$2"); do
    for end in in out; do
        [ -p "$1/$pair.$end" ] || mkfifo -m 660 "$1/$pair.$end"
        echo "$1/$pair.$end"
    done
done
