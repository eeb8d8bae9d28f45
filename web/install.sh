#!/bin/sh
# Installs what web/ and its tour need of Debian 12, as root; with --tests also what tools/try_web.py needs, with --front nginx.
#   web/install.sh [--tests] [--front]
set -eu
packages="curl python3 python3-pyosmium python3-numpy python3-scipy python3-shapely python3-polyline python3-aiohttp python3-prometheus-client libjs-leaflet"
for word in "$@"; do
    case $word in
    --tests) packages="$packages python3-osmnx python3-networkx python3-selenium osmium-tool chromium chromium-driver nginx-light openssl sumo-tools" ;;
    --front) packages="$packages nginx-light" ;;
    *) echo "usage: web/install.sh [--tests] [--front]" >&2; exit 2 ;;
    esac
done
[ "$(id -u)" = 0 ] || { echo "web/install.sh: it is run as root, for apt-get" >&2; exit 1; }
apt-get update
# shellcheck disable=SC2086  # each word is a package
DEBIAN_FRONTEND=noninteractive apt-get install -y --no-install-recommends $packages
