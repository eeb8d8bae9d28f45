#!/usr/bin/env bash
# Tries the package, its units and examples/haproxy.cfg under a systemd of their own, in a container over this machine's files, which stay as they are; its network is the loopback alone.
#   [TRY_TIMES=N] tools/try_units.sh [PROGRAM [STEP..]]
# PROGRAM is crates/roadmark/out/roadmark where none is given. It takes under five minutes, each step has a time limit, and nothing is left behind. On a machine that has much else to do each limit is N
# times longer. Needs root, systemd-container, haproxy, openssl, socat,
# Python and what tools/package.sh needs. The steps stand in tools/try_units_steps.sh: all are taken, or `install` and those that are named.
set -eu
times=${TRY_TIMES:-1}
here=$(cd "$(dirname "${BASH_SOURCE[0]}")" && pwd)
fail() { echo "try_units: $1" >&2; exit 1; }

# The container, a layer over the root of this machine. This runs as the first process of namespaces of its own, so that all that it mounts and starts ends with it.
contain() {
  local work=$1
  mkdir -p /run/systemd/nspawn
  mount -t tmpfs tmpfs /run/systemd/nspawn
  mount -t tmpfs -o size=2g,mode=755 tmpfs "$work/space"
  mkdir "$work/space/upper" "$work/space/over" "$work/space/root"
  mount -t overlay -o "lowerdir=/,upperdir=$work/space/upper,workdir=$work/space/over" overlay "$work/space/root"
  local root=$work/space/root
  mkdir "$root/try"
  cp "$work"/*.deb "$here/try_units_steps.sh" "$here/try_units_clients.py" "$root/try"
  # A new machine, which starts services as packages are installed, and waits for no network.
  rm -rf "$root/etc/machine-id" "$root/var/lib/roadmark" "$root/usr/sbin/policy-rc.d"
  ln -sf /dev/null "$root/etc/systemd/system/systemd-networkd-wait-online.service"
  cat > "$root/etc/systemd/system/try.service" <<UNIT
[Unit]
SuccessAction=poweroff
FailureAction=poweroff
[Service]
Environment=TRY_TIMES=$times
ExecStart=/bin/bash /try/try_units_steps.sh ${*:2}
StandardOutput=append:/try/said
StandardError=append:/try/said
RuntimeMaxSec=$((320 * times))
UNIT
  : > "$root/try/said"
  tail -n +1 -f "$root/try/said" &
  UNIFIED_CGROUP_HIERARCHY=1 timeout -k 10 $((340 * times)) systemd-nspawn --quiet --directory="$root" --private-network --register=no --keep-unit --machine=try --link-journal=no --console=pipe --boot \
    systemd.unit=try.service systemd.wants=basic.target > "$work/console" 2>&1 < /dev/null || true
  sleep 1
  cp "$root/try/said" "$work/said"
  [ ! -e "$root/try/journal" ] || cat "$root/try/journal"
}

# A control group for the container, in each hierarchy by which a systemd may go.
hierarchies() { findmnt -n -o TARGET -t cgroup2; findmnt -n -o TARGET -t cgroup -O name=systemd; }
enter_groups() {
  local mounted
  for mounted in $(hierarchies); do
    mkdir "$mounted/try_units.$$"
    echo $$ > "$mounted/try_units.$$/cgroup.procs"
  done
}
leave() {
  local mounted
  [ -z "$container" ] || { kill -9 "$container"; wait "$container"; } 2> /dev/null || true
  for mounted in $(hierarchies); do
    [ -d "$mounted/try_units.$$" ] || continue
    echo $$ > "$mounted/cgroup.procs"
    find "$mounted/try_units.$$" -depth -type d -exec rmdir {} +
  done
  rm -rf "$work"
}

if [ "${1:-}" = --contain ]; then
  contain "${@:2}"
  exit
fi

program=$(realpath -e "${1:-$here/../crates/roadmark/out/roadmark}") || fail "there is no built program"
[ "$(id -u)" = 0 ] || fail "only root can start a container"
for needed in systemd-nspawn haproxy openssl socat python3 dpkg-deb; do
  command -v $needed > /dev/null || fail "there is no $needed"
done
work=$(mktemp -d) container=
trap leave EXIT
trap 'exit 1' INT TERM
mkdir "$work/space"
"$here/package.sh" --into "$work" "$program"
mv "$work"/roadmark_*.deb "$work/old.deb"
mv "$work"/roadmark-web_*.deb "$work/web.deb"
# The package of a later version, to which the first one is upgraded.
dpkg-deb --raw-extract "$work/old.deb" "$work/later"
sed -i 's/^Version: .*/&.later/' "$work/later/DEBIAN/control"
dpkg-deb -Znone --root-owner-group --build "$work/later" "$work/later.deb" > /dev/null

enter_groups
unshare --mount --propagation private --pid --fork --kill-child --mount-proc "$0" --contain "$work" "${@:2}" &
container=$!
wait "$container" || true
grep -q ' passed, ' "$work/said" || { tail -n 20 "$work/console" >&2; fail "the container ended before the steps did"; }
[ "$(tail -n 1 "$work/said" | sed 's/.* passed, //')" = "0 failed" ]
