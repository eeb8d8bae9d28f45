#!/usr/bin/env bash
# Runs the tests of the fronts: the client module, and the scripts of examples. They need Python 3.11 and nothing outside its standard library, no network but 127.0.0.1, and leave nothing behind.
#   tools/try_fronts.sh [PROGRAM]
# PROGRAM is crates/roadmark/out/roadmark where none is given. Where it is not there, or etcd is not, the tests that need it are left out, which is told. The last line is
# `N passed, N failed`; the status is 1 where one failed.
set -u
top=$(cd "$(dirname "${BASH_SOURCE[0]}")/.." && pwd)
program=$(realpath -m "${1:-$top/crates/roadmark/out/roadmark}")
if [ $# -gt 0 ] && [ ! -x "$program" ]; then
  echo "try_fronts: there is no program $1" >&2
  exit 2
fi
[ -x "$program" ] || program=
if ! python3 -c 'import sys; sys.exit(sys.version_info < (3, 11))' < /dev/null; then
  echo "try_fronts: there is no Python 3.11" >&2
  exit 2
fi
# What programs say doesn't depend on who runs this.
export ROADMARK=$program LC_ALL=C.UTF-8 PYTHONUTF8=1
unset PYTHONPATH PYTHONHOME PYTHONDONTWRITEBYTECODE http_proxy https_proxy
exec python3 -S -B -W ignore::ResourceWarning "$top/examples/tests/run.py" "$top" < /dev/null
