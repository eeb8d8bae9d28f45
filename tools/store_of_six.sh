# Sourced by the scripts beside it that use a store of the example network: checks that the program is there, and goes to a new folder, removed at
# the end, with the example files and `six.store`. The program is the built one, or the one whose path is given.
top=$(cd "$(dirname "${BASH_SOURCE[0]}")/.." && pwd)
program=$(realpath "${1:-$top/crates/roadmark/out/roadmark}")
folder=$(mktemp -d)
trap 'rm -rf "$folder"' EXIT
cd "$folder" || exit 1
cp "$top"/examples/six.* .
"$program" create six.store six.gr six.ss > /dev/null || exit 1
