#!/usr/bin/env bash
# Takes the tour of docs/WEB.md on a new machine: a minimal Debian 12, which debootstrap makes in a folder, with this repository, the program, and nothing else. Each line of the page that begins with
# `$ ` is run there by one shell, and what it prints is compared with the lines behind it; the seconds of each are told. Where the page says to open a browser, chromium clicks, and is there until the tour ends.
#   tools/try_web_tour.sh [--base FOLDER] [--shots FOLDER] [PROGRAM]
# The minimal Debian is taken from the one FOLDER, and made there where it is not; without it it is thrown away. Screenshots go into the other. PROGRAM is crates/roadmark/out/roadmark where none is
# given. Needs root, debootstrap, the network, port 5000, and 2 GB of disk; all that is mounted and started ends with it.
set -eu
top=$(cd "$(dirname "${BASH_SOURCE[0]}")/.." && pwd)
fail() { echo "try_web_tour: $1" >&2; exit 1; }

# The tour's steps: a line N.command, and N.wanted, what it prints. The browser is a step too.
steps_of() {
  sed -n '/^## A tour/,/^## The map/p' "$top/docs/WEB.md" | awk -v folder="$1" '
    function step(command) { name = sprintf("%s/%02d", folder, ++count); print command > (name ".command"); printf "" > (name ".wanted") }
    /^Open `http/ {
      step("apt-get install -y --no-install-recommends chromium chromium-driver python3-selenium")
      step("/repo/web/tests/of_tour.py > /steps/browser 2>&1 & browser=$!; while kill -0 $browser && ! grep ready /steps/browser; do sleep 0.1; done; grep ready /steps/browser")
    }
    /^    \$ kill/ { step("wait $browser; cat /steps/browser; grep -q behind /steps/browser") }
    /^    \$ / { gsub(/REPO/, "/repo"); step(substr($0, 7)); next }
    /^    / { print substr($0, 5) > (name ".wanted") }'
}

# The shell of the tour, in the new machine. A step that prints nothing on the page may print anything; it succeeds, and what another prints is there within a minute.
tour() {
  local step tries began took
  cd /tour
  for step in /steps/*.command; do
    step=${step%.command} tries=0 began=${EPOCHREALTIME/./}
    # shellcheck disable=SC1090  # a line of the page
    . "$step.command" > "$step.seen" 2> "$step.errors" || { echo "FAILED $(cat "$step.command"): status $?"; tail -n 5 "$step.errors"; return 1; }
    until [ ! -s "$step.wanted" ] || sed -e '$a\' "$step.seen" | cmp -s "$step.wanted"; do
      tries=$((tries + 1))
      # An answer without a line feed is a line.
      [ "$tries" -lt 600 ] || { echo "FAILED $(cat "$step.command")"; diff "$step.wanted" "$step.seen"; return 1; }
      sleep 0.1
    done
    took=$(((${EPOCHREALTIME/./} - began) / 100000))
    echo "passed $(cat "$step.command") ($((took / 10)).$((took % 10)) s)"
  done
}

# The new machine, a layer over the minimal Debian, in namespaces of its own.
contain() {
  local work=$1 base=$2 program=$3 root=$1/root
  mkdir "$work/upper" "$work/over" "$root"
  mount -t overlay -o "lowerdir=$base,upperdir=$work/upper,workdir=$work/over" overlay "$root"
  mkdir "$root/repo" "$root/steps" "$root/tour"
  cp -r "$top"/{web,client,examples} "$root/repo"
  cp "${BASH_SOURCE[0]}" "$root/repo/tour"
  install -m 755 "$program" "$root/usr/bin/roadmark"
  cp /etc/resolv.conf "$root/etc"
  echo 127.0.0.1 localhost > "$root/etc/hosts"
  cp "$work"/steps/* "$root/steps"
  echo silent > "$root/root/.curlrc"
  # Nobody minds a power cut here.
  echo force-unsafe-io > "$root/etc/dpkg/dpkg.cfg.d/unsafe"
  mount -t proc proc "$root/proc"
  mount --rbind /dev "$root/dev"
  mount -t tmpfs tmpfs "$root/dev/shm"
  chroot "$root" env -i PATH="$PATH" HOME=/root LC_ALL=C.UTF-8 bash /repo/tour --tour
  cp "$root"/steps/*.png "$work"
}

case ${1:-} in
  --contain) contain "${@:2}"; exit ;;
  --tour) tour; exit ;;
esac
base='' shots='' program=$top/crates/roadmark/out/roadmark
while [ $# -gt 0 ]; do
  case $1 in
    --base) base=${2:?}; shift ;;
    --shots) shots=${2:?}; shift ;;
    -*) fail "no such option: $1" ;;
    *) program=$1 ;;
  esac
  shift
done
[ -x "$program" ] || fail "there is no built program $program"
[ "$(id -u)" = 0 ] || fail "only root can make a new machine"
work=$(mktemp -d -p /var/tmp)
trap 'rm -rf "$work"' EXIT
base=${base:-$work/base}
[ -d "$base" ] || debootstrap --variant=minbase bookworm "$base" > "$work/said" 2>&1 || { tail "$work/said" >&2; fail "no minimal Debian was made"; }
mkdir "$work/steps"
steps_of "$work/steps"
unshare --mount --propagation private --pid --fork --kill-child --mount-proc "${BASH_SOURCE[0]}" --contain "$work" "$(realpath "$base")" "$(realpath "$program")"
[ -z "$shots" ] || { mkdir -p "$shots"; cp "$work"/*.png "$shots"; }
