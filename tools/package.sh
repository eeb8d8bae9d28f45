#!/usr/bin/env bash
# Makes a Debian package of the built program, its man page, units, examples and pages, and another one, roadmark-web, of web/, by debhelper and the files of tools/debian. It builds nothing itself.
#   tools/package.sh [--try] [--into FOLDER] [PROGRAM]
# PROGRAM is crates/roadmark/out/roadmark where none is given, FOLDER the caller's. The package's version has the program's, as it prints it, and the number of the
# format, as it writes it into a store. The program has to name the logic that `rt version` tells; where there is no `rt`, that README.md names. The maintainer is what DEBFULLNAME and DEBEMAIL say.
# --try looks through both packages by lintian, where that is there, installs them in a new folder's own root, runs the program there, removes them again, and sees that nothing is left.
# Needs debhelper; units are checked where systemd-analyze is there.
set -eu
top=$(cd "$(dirname "${BASH_SOURCE[0]}")/.." && pwd)
fail() { echo "package: $1" >&2; exit 1; }

tries=no into=$PWD program=$top/crates/roadmark/out/roadmark
while [ $# -gt 0 ]; do
  case $1 in
    --try) tries=yes ;;
    --into) into=${2:?}; shift ;;
    -*) fail "no such option: $1" ;;
    *) program=$1 ;;
  esac
  shift
done
[ -x "$program" ] || fail "there is no built program $program"
command -v dh > /dev/null || fail "there is no debhelper"
program=$(realpath "$program")
work=$(mktemp -d)
trap 'rm -rf "$work"' EXIT

# The number of the format: bytes 8 to 11 of a store that the program makes.
format_of() {
  "$program" create "$work/six.store" "$top/examples/six.gr" "$top/examples/six.ss" > /dev/null
  echo $((16#$(od -An -v -tx1 -j8 -N4 "$work/six.store" | tr -d ' ')))
}

# The logic of the kit: as the kit tells it, or as README.md does.
logic_of() {
  if command -v rt > /dev/null; then rt version | sed -n 's/.* logic \([0-9a-f]*\)$/\1/p'
  else sed -n 's/.*logic `\([0-9a-f]*\)`.*/\1/p' "$top/README.md" | head -n 1
  fi
}

version=$("$program" --version | awk '{ print $2 }')
format=$(format_of)
logic=$(logic_of)
[ -n "$version" ] && [ -n "$logic" ] || fail "no version of the program ($version) or no logic of the kit ($logic)"
[ "$("$program" --version)" = "roadmark $version (format $format, rattle logic $logic)" ] || fail "--version tells another format than $format, or another logic than $logic"
grep -q "roadmark $version" <(head -n 3 "$top/docs/roadmark.1") || fail "the man page is of another version than $version"
full=$version+format$format
maintainer="${DEBFULLNAME:-roadmark} <${DEBEMAIL:-roadmark@example.org}>"
# The same sources give the same package.
SOURCE_DATE_EPOCH=$(git -C "$top" log -1 --format=%ct 2> /dev/null || date -r "$program" +%s)
export SOURCE_DATE_EPOCH

# The tree that debhelper packs: what tools/debian/roadmark.install and its like name.
tree=$work/tree
lay_out() {
  mkdir -p "$tree/bin" "$tree/man" "$tree/lib/systemd/system" "$tree/lib/roadmark/replicas" "$tree/docs"
  cp -r "$top/tools/debian" "$top/README.md" "$top/examples" "$tree"
  rm -rf "$tree"/examples/{tests,__pycache__} "$tree"/examples/replicas/__pycache__
  cp "$top"/docs/*.md "$top"/docs/*.svg "$tree/docs"
  cp "$program" "$tree/bin/roadmark"
  cp "$top/docs/roadmark.1" "$tree/man"
  cp "$top"/examples/{,replicas/}*.{service,socket} "$tree/lib/systemd/system"
  cp "$top/examples/attach.sh" "$top/examples/pairs.sh" "$tree/lib/roadmark"
  cp "$top"/examples/replicas/*.py "$tree/lib/roadmark/replicas"
  # The module by which scripts and examples speak with a server.
  mkdir "$tree/lib/roadmark/client"
  cp "$top"/client/*.py "$tree/lib/roadmark/client"
  mkdir -p "$tree/web/roadmark" "$tree/web/systemd/system"
  cp -r "$top/web" "$tree/web/roadmark"
  mv "$tree/web/roadmark/web/roadmark-web.service" "$tree/web/systemd/system"
  rm -rf "$tree"/web/roadmark/web/{tests,__pycache__,install.sh}
  # Units name the program and the scripts where the package has them.
  sed -i 's#/usr/local/bin/roadmark#/usr/bin/roadmark#g; s#/usr/local/bin/\([a-z]*\.sh\)#/usr/lib/roadmark/\1#g; s#/usr/local/lib/roadmark#/usr/lib/roadmark#g; s#, the built program and the scripts attach.sh and pairs.sh of this folder in /usr/local/bin,##; s#, with the three units in /etc/systemd/system##; s#what web/install.sh installs, web/ and client/ in /[a-z/]*, ##' "$tree"/{lib,web}/systemd/system/*
  sed -i "s#\${MAINTAINER}#$maintainer#" "$tree/debian/control"
  printf 'roadmark (%s) unstable; urgency=medium\n\n  * The program as it was built.\n\n -- %s  %s\n' "$full" "$maintainer" "$(date -R -u -d "@$SOURCE_DATE_EPOCH")" > "$tree/debian/changelog"
  chmod -R u=rwX,go=rX "$tree"
}

# Units as they are where the scripts stand now.
verify() {
  command -v systemd-analyze > /dev/null || { echo "package: no systemd-analyze here, the units are not verified"; return; }
  cp -r "$tree/lib/systemd/system" "$work/units"
  cp "$tree"/web/systemd/system/* "$work/units"
  sed -i "s#/usr/lib/roadmark/web/#$tree/web/roadmark/web/#g; s#/usr/lib/roadmark/#$tree/lib/roadmark/#g; s#/usr/bin/roadmark#$tree/bin/roadmark#g" "$work"/units/*
  systemd-analyze verify --man=no "$work"/units/* || fail "a unit is refused"
  echo "package: $(ls "$work/units" | wc -l) units verified"
}

# In a new folder's own root: it is installed with its scripts, run, and removed.
try() {
  local root=$work/root doc=usr/share/doc/roadmark left
  local install=(dpkg --root="$root" --force-depends --force-not-root --force-script-chrootless --log=/dev/null)
  if command -v lintian > /dev/null; then
    lintian --allow-root --fail-on error "$package" "$web" || fail "lintian finds errors"
  else
    echo "package: no lintian here"
  fi
  mkdir -p "$root"/var/lib/dpkg/info "$root"/var/lib/dpkg/updates "$root"/var/log "$root"/etc
  : > "$root/var/lib/dpkg/status"
  "${install[@]}" --install "$package" "$web" > "$work/said" 2>&1 || { cat "$work/said" >&2; fail "they were not installed"; }
  grep -q '^roadmark:' "$root/etc/passwd" || fail "its user was not made"
  cmp "$root/usr/bin/roadmark" "$program" || fail "the installed program is another one"
  [ -x "$root/usr/lib/roadmark/web/gateway.py" ] && [ -e "$root/lib/systemd/system/roadmark-web.service" ] || fail "the gateway was not installed"
  (cd "$root/$doc" && ./roadmark create "$work/try.store" examples/six.gr examples/six.ss && ./examples/client.sh "$work/try.store") > "$work/said" || fail "an example fails"
  dpkg-query --admindir="$root/var/lib/dpkg" --show --showformat '${Package} ${Version}, store format ${Store-Format}, logic ${Rattle-Logic}\n' roadmark
  "${install[@]}" --purge roadmark-web roadmark > "$work/said" 2>&1 || { cat "$work/said" >&2; fail "they were not removed"; }
  # The user stays, as Debian's packages leave theirs.
  left=$(cd "$root" && find . -path ./var -prune -o -path './etc/*' -regex '.*/\(passwd\|group\|shadow\|gshadow\)-?' -prune -o -name .pwd.lock -prune -o ! -type d -print)
  [ -z "$left" ] || fail "left behind: $left"
  echo "package: installed, run and removed in its own root"
}

lay_out
verify
(cd "$tree" && STORE_FORMAT=$format RATTLE_LOGIC=$logic dpkg-buildpackage --build=binary --no-sign --no-pre-clean) > "$work/said" 2>&1 || { cat "$work/said" >&2; fail "it was not packed"; }
package=$into/$(basename "$work"/roadmark_*.deb) web=$into/$(basename "$work"/roadmark-web_*.deb)
mv "$work"/roadmark_*.deb "$work"/roadmark-web_*.deb "$into"
printf 'package: %s\n' "$package" "$web"
[ "$tries" = no ] || try
