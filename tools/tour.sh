#!/usr/bin/env bash
# Runs the tours of README.md, docs/TUTORIAL.md, docs/MANUAL.md, docs/OPERATING.md, the man page and, if etcd is installed, docs/REPLICAS.md with the built program, and compares
# what is printed with what the pages have.
#   tools/tour.sh [PROGRAM [PAGE..]]
# A tour is a code block, four blanks wide, whose first line begins with `$ `. Such a line is run, and the lines after it are what it prints on both streams. Each heading
# `## ` begins in a new folder with the examples, the client module and the program as ./roadmark. Then the subcommands and options of help are compared with those of the man page, the
# clauses and quotations of the pages with the sources, the pages' links are followed, and wrong bodies are fitted to the sources. With pages, such as docs/MANUAL.md, only their tours run.
set -u
top=$(cd "$(dirname "${BASH_SOURCE[0]}")/.." && pwd)
program=$(realpath "${1:-$top/crates/roadmark/out/roadmark}")
work=$(mktemp -d)
trap 'rm -rf "$work"' EXIT

# Writes the steps of the page on standard input: WORK/NAME.SECTION/STEP.command and STEP.wanted.
split_page() {
  awk -v prefix="$work/$1" '
    /^## / { section++ }
    !/^    / { inside = 0; next }
    /^    \$ / {
      inside = 1
      folder = sprintf("%s.%02d", prefix, section)
      if (!(folder in made)) { system("mkdir -p " folder "/run"); made[folder] }
      step = sprintf("%s/%02d", folder, ++count[folder])
      print substr($0, 7) > (step ".command")
      printf "" > (step ".wanted")
      next
    }
    inside { print substr($0, 5) > (step ".wanted") }'
}

# Runs the steps of a folder in one shell, each with its own output.
run_steps() {
  local folder=$1 step
  cp -r "$top/examples" "$top/client" "$folder/run"
  ln -s "$program" "$folder/run/roadmark"
  for step in "$folder"/*.command; do
    printf '{\n%s\n} > %s.seen 2>&1\n' "$(cat "$step")" "${step%.command}"
  done > "$folder/script"
  (cd "$folder/run" && PATH=$PWD:$PATH timeout 300 bash "$folder/script" < /dev/null > /dev/null 2>&1)
}

pages=("${@:2}")
[ $# -gt 1 ] || pages=(README.md docs/TUTORIAL.md docs/MANUAL.md docs/OPERATING.md docs/roadmark.1 docs/REPLICAS.md)
for page in "${pages[@]}"; do
  name=$(basename "${page%.*}")
  case $page in
    *.1) sed -n '/^\.SH EXAMPLES/,/^\.fi/ { /^\./d; s/\\e/\\/g; s/^/    /; p }' "$top/$page" | split_page "$name" ;;
    *REPLICAS.md) if command -v etcd > /dev/null; then split_page "$name" < "$top/$page"; else echo "no etcd here: the tour of $page is left out"; fi ;;
    *) split_page "$name" < "$top/$page" ;;
  esac
done

steps=0
wrong=0
for folder in "$work"/*/; do
  folder=${folder%/}
  run_steps "$folder"
  for step in "$folder"/*.command; do
    steps=$((steps + 1))
    if ! diff "${step%.command}.wanted" "${step%.command}.seen" > "$work/difference" 2>&1; then
      wrong=$((wrong + 1))
      echo "$(basename "$folder"): $(cat "$step")"
      sed 's/^/    /' "$work/difference"
    fi
  done
done
echo "$steps commands of the tours, $wrong with another output"
[ $# -lt 2 ] || exit $((wrong > 0))

"$top/tools/compare_help.sh" "$program" || wrong=$((wrong + 1))
"$top/tools/compare_clauses.py" || wrong=$((wrong + 1))
"$top/tools/compare_reached.py" || wrong=$((wrong + 1))
"$top/tools/compare_quotations.py" || wrong=$((wrong + 1))
"$top/tools/check_pages.py" || wrong=$((wrong + 1))
"$top/tools/try_wrong_bodies.py" --fit || wrong=$((wrong + 1))
[ "$wrong" = 0 ]
