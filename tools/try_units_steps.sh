#!/usr/bin/env bash
# The steps of tools/try_units.sh, which runs them as a service of its container. Each is a process of its own with a time limit; a line is told of each thing that is looked at.
set -u
store=/var/lib/roadmark/roads.store
examples=/usr/share/doc/roadmark/examples
pairs=/run/roadmark/pairs
client=/run/roadmark-client.sock
units='roadmark.service roadmark-client.socket roadmark-ask.socket'
# So many times longer is each time limit.
times=${TRY_TIMES:-1}

# is NAME WANTED SEEN
is() {
  if [ "$2" = "$3" ]; then echo "ok      $1"; else echo "FAILED  $1: wanted ${2@Q}, seen ${3@Q}"; fi
}
# holds NAME COMMAND..
holds() {
  local name=$1
  shift
  if "$@" > /try/heard 2>&1; then echo "ok      $name"; else echo "FAILED  $name: ${*@Q}"; head -n 5 /try/heard; fi
}
# within NAME SECONDS COMMAND..: it succeeds in so many seconds
within() {
  local name=$1 seconds=$(($2 * times)) began=$SECONDS
  shift 2
  if timeout "$seconds" "$@" > /dev/null 2>&1; then echo "ok      $name ($((SECONDS - began)) s)"; else echo "FAILED  $name: not within $seconds s: ${*@Q}"; fi
}
# ask LINES [SECONDS [SOCKET]]: the answers to lines, on one line.
ask() { printf "$1" 2> /dev/null | timeout "$((${2:-20} * times))" socat -t "$((${2:-20} * times))" - "UNIX-CONNECT:${3:-$client}" 2>&1 | paste -sd /; }
# until_answers SECONDS: the seconds until a client is answered
until_answers() {
  local began=$SECONDS
  while [ $((SECONDS - began)) -lt "$(($1 * times))" ]; do
    case $(ask 'dist 1 6\n' 5) in *'d 1 6 '*) echo "$((SECONDS - began))"; return ;; esac
    sleep 0.2
  done
  return 1
}
answered() { until_answers "$1" > /dev/null; }
main_pid() { systemctl show --property MainPID --value roadmark.service; }
# stops NAME: a stop of the service ends within ten seconds
stops() {
  within "$1" 10 systemctl stop roadmark.service
  systemctl is-active --quiet roadmark.service || [ "$(main_pid)" = 0 ] || systemctl kill --kill-whom=all --signal=KILL roadmark.service
}
fresh_store() {
  systemctl stop roadmark.service
  rm -rf "$store" /var/lib/roadmark/copies
  runuser -u roadmark -- roadmark create "$store" "$examples/six.gr" "$examples/six.ss" > /dev/null
}

step_install() {
  holds 'the package is installed' dpkg --install /try/old.deb
  holds 'the user is made' id roadmark
  id roadmark > /dev/null 2>&1 || systemd-sysusers
  is 'nothing is enabled or started' 'disabled inactive' "$(systemctl is-enabled roadmark.service) $(systemctl is-active roadmark.service)"
  install -d -o roadmark -g roadmark /var/lib/roadmark
  fresh_store
  within 'the service and its socket start' 20 systemctl enable --now roadmark.service
  is 'a client is answered' 'v 0/d 1 6 15' "$(ask 'dist 1 6\n')"
  is 'both kinds of pairs are served' 'clients 1 pairs 32' "$(ask 'state\n' | grep -o 'clients [0-9]* pairs [0-9]*')"
  is 'a client that asks alone changes nothing' 'no 64/no 1/v 0/d 1 6 15' "$(ask 'close 7\ncopy any\ndist 1 6\n' 20 /run/roadmark-ask.sock)"
  is 'and any user may be one' 'v 0/d 1 6 15' "$(printf 'dist 1 6\n' | runuser -u nobody -- timeout 20 socat -t 20 - UNIX-CONNECT:/run/roadmark-ask.sock | paste -sd /)"
  holds 'but none that changes' bash -c "! runuser -u nobody -- socat -u OPEN:/dev/null UNIX-CONNECT:$client"
  is 'a hot copy is made as installed' 'copied 0' "$(ask 'copy monday\n')"
  is 'the copy is a store' 'v 0/d 1 6 15/x 6 1' "$(roadmark ask /var/lib/roadmark/copies/monday "$examples/six.p2p" 2>&1 | paste -sd /)"
}

step_stop() {
  local round
  for round in 1 2 3; do
    systemctl start --no-block roadmark.service
    stops "start and stop at once, $round"
    systemctl start roadmark.service
    stops "start, and stop at once behind it, $round"
  done
  holds 'the store is let go' roadmark check "$store"
  holds 'a client of a stopped service is refused' bash -c "! socat -u OPEN:/dev/null UNIX-CONNECT:$client"
  systemctl start roadmark.service
  (sleep 1; printf 'dist 1 6\n'; sleep 30) | timeout 20 socat -t 1 - "UNIX-CONNECT:$client" > /try/held &
  sleep 3
  stops 'a stop does not wait for a silent client'
  within 'that client is told the end' 5 tail --pid=$! -f /dev/null
  is 'and had its answer' 'v 0/d 1 6 15' "$(paste -sd / /try/held)"
  systemctl start roadmark.service
}

step_comes_back() {
  systemctl start roadmark.service
  answered 20
  systemctl kill --kill-whom=all --signal=KILL roadmark.service
  within 'killed, it is back' 20 bash "$0" --answered 20
  echo quit > /run/roadmark/input
  sleep 0.5
  within 'ended by its standard input, it is back' 20 bash "$0" --answered 20
  systemctl stop roadmark.service
  flock --shared "$store" sleep 4 &
  sleep 0.5
  systemctl start --no-block roadmark.service
  wait
  within 'a lock of four seconds at its start is waited out' 20 bash "$0" --answered 20
}

step_burst() {
  systemctl restart roadmark.service
  systemctl reset-failed
  systemctl start roadmark.service
  python3 - "$client" <<'PYTHON'
import socket, sys, time
begun, told = time.monotonic(), 0
for _ in range(3):
    held = []
    for _ in range(1000):
        one = socket.socket(socket.AF_UNIX)
        try:
            one.connect(sys.argv[1])
            held.append(one)
        except OSError:
            told += 1
    for one in held:
        one.close()
print(f"        3,000 connections in {time.monotonic() - begun:.1f} s, {told} refused")
PYTHON
  within 'after 3,000 connections in a burst a client is answered' 80 bash "$0" --answered 80
  is 'and the socket is there' 'active' "$(systemctl is-active roadmark-client.socket)"
}

step_kill() {
  answered 60
  holds 'kill -9 under twelve clients: nothing told is lost' python3 /try/try_units_clients.py kill "$client" 12 3
}

# Clients that come while no server holds the pipes: all are answered or told the end, none hangs.
step_no_server() {
  systemctl start roadmark.service
  answered 60
  local began=$SECONDS status=0 one
  mkdir -p /try/nobody && mkfifo /try/nobody/1.in /try/nobody/1.out /try/nobody/2.in /try/nobody/2.out
  printf 'dist 1 6\n' | timeout 60 /usr/lib/roadmark/attach.sh /try/nobody > /try/told 2>&1 || status=$?
  is 'attach.sh without a server ends with status 1' 1 "$status"
  holds "and says so, within 15 s ($((SECONDS - began)) s)" test "$((SECONDS - began))" -le "$((15 * times))" -a -s /try/told
  flock --shared "$store" sleep 6 &
  sleep 0.2
  systemctl kill --signal=KILL roadmark.service
  for one in 1 2 3; do
    (sleep "$one"; printf 'dist 1 6\n' | timeout 60 socat -t 60 - "UNIX-CONNECT:$client" > "/try/came.$one"; echo "status $?" >> "/try/came.$one") &
  done
  wait
  holds 'clients that came while it was started again do not hang' bash -c '! grep -l "status 124" /try/came.*'
  within 'no client process is left of them' 20 bash -c 'while systemctl list-units --no-legend --all "roadmark-client@*" | grep -q .; do sleep 0.5; done'
  within 'the next one is answered' 20 bash "$0" --answered 20
}

# A client that says `until` of a version that does not come, and leaves.
step_gone_client() {
  answered 60
  local one
  for one in 1 2; do
    printf 'until 99999999\n' | runuser -u roadmark -- timeout 1 /usr/lib/roadmark/attach.sh "$pairs"
  done
  is 'its pair is passed over' 'd 1 6' "$(ask 'dist 1 6\n' 15 | sed 's/.*\(d 1 6\).*/\1/')"
  for one in $(seq 16); do
    printf 'until 99999999\n' | timeout 2 socat -t 1 - "UNIX-CONNECT:$client" > /dev/null 2>&1 &
  done
  wait
  is 'sixteen of them hold up the next one no longer than the patience of the server' 'd 1 6' "$(ask 'dist 1 6\n' 60 | sed 's/.*\(d 1 6\).*/\1/')"
}

step_full_disk() {
  systemctl stop roadmark.service
  mount -t tmpfs -o size=400k,mode=755 tmpfs /var/lib/roadmark
  chown roadmark: /var/lib/roadmark
  runuser -u roadmark -- roadmark create "$store" "$examples/six.gr" "$examples/six.ss" > /dev/null
  systemctl start roadmark.service
  answered 20
  dd if=/dev/zero of=/var/lib/roadmark/filler bs=4k status=none 2> /dev/null
  is 'with a full disk 300 changes are durable' 300 "$(seq 300 | sed 's/.*/set 8 &/' | timeout "$((20 * times))" socat -t "$((20 * times))" - "UNIX-CONNECT:$client" | grep -c '^ok ')"
  is 'a copy is refused' 'no 43' "$(ask 'copy full\n')"
  is 'and leaves nothing' '' "$(ls /var/lib/roadmark/copies)"
  systemctl kill --signal=KILL roadmark.service
  answered 20
  is 'killed then, the last change is there' 'a 8 5 6 300 open' "$(ask 'arc 8\n' | sed 's/.*\///')"
  systemctl stop roadmark.service
  umount /var/lib/roadmark
}

# Certificates: an authority for clients and the server, and another one of which nobody knows.
make_certificates() {
  local name
  for name in known unknown; do
    openssl req -x509 -newkey rsa:2048 -nodes -keyout "/try/$name.key" -out "/try/$name.crt" -days 2 -subj "/CN=$name" 2> /dev/null
  done
  for name in localhost known.client unknown.client; do
    openssl req -newkey rsa:2048 -nodes -keyout "/try/$name.key" -out "/try/$name.csr" -subj "/CN=$name" 2> /dev/null
    openssl x509 -req -in "/try/$name.csr" -CA "/try/$(case $name in unknown*) echo unknown ;; *) echo known ;; esac).crt" -CAkey "/try/$(case $name in unknown*) echo unknown ;; *) echo known ;; esac).key" \
      -CAcreateserial -days 2 -out "/try/$name.crt" 2> /dev/null
    cat "/try/$name.crt" "/try/$name.key" > "/try/$name.pem"
  done
}
# health STATE SECONDS: haproxy's metrics tell that state of the server
health() {
  local began=$SECONDS
  while [ $((SECONDS - began)) -lt "$(($2 * times))" ]; do
    ! printf 'GET /metrics HTTP/1.0\r\n\r\n' | timeout 5 socat -t 5 - TCP:127.0.0.1:8405 | grep -q "^haproxy_server_status{proxy=\"roadmark\",server=\"local\",state=\"$1\"} 1" || return 0
    sleep 0.5
  done
  return 1
}
# by_network CERTIFICATE: the answer to a client with that certificate
by_network() { printf 'dist 1 6\n' | timeout "$((15 * times))" socat -t "$((10 * times))" - "OPENSSL:127.0.0.1:7322,commonname=localhost,cafile=/try/known.crt$1" 2> /dev/null | paste -sd /; }

step_haproxy() {
  fresh_store
  systemctl start roadmark.service
  answered 60
  make_certificates
  cp "$examples/haproxy.cfg" /etc/haproxy/haproxy.cfg
  cp /try/localhost.pem /etc/haproxy/roadmark.pem
  cp /try/known.crt /etc/haproxy/roadmark-clients.crt
  within 'haproxy starts with examples/haproxy.cfg' 20 systemctl restart haproxy.service
  within 'it finds the server well' 20 bash "$0" --health UP 20
  is 'a client with a certificate is answered' 'v 0/d 1 6 15' "$(by_network ,cert=/try/known.client.pem)"
  is 'one without has no answer' '' "$(by_network '')"
  is 'nor has one of another authority' '' "$(by_network ,cert=/try/unknown.client.pem)"
  holds 'fourteen are served, the next is told the end within seconds' python3 /try/try_units_clients.py queue 7322 14
  systemctl kill --signal=STOP roadmark.service
  within 'a server that stands still is told DOWN' 20 bash "$0" --health DOWN 20
  systemctl kill --signal=CONT roadmark.service
  within 'and UP when it goes on' 30 bash "$0" --health UP 30
  systemctl stop roadmark.service
  within 'a stopped one is told DOWN' 20 bash "$0" --health DOWN 20
  systemctl stop haproxy.service
  systemctl start roadmark.service
}

# exposure UNIT
exposure() { systemd-analyze security --offline=true "/lib/systemd/system/$1" 2> /dev/null | sed -n 's/.*exposure level for .*: \([0-9.]*\) .*/\1/p' | grep . || echo 10; }
step_security() {
  local unit
  for unit in roadmark.service roadmark-client@.service roadmark-ask@.service roadmark-follow.service roadmark-tell@.service; do
    holds "exposure of $unit: $(exposure "$unit"), below 3" awk "BEGIN { exit !($(exposure "$unit") < 3) }"
  done
}

# http METHOD ADDRESS [BODY]: the status and the answer of the gateway, with its token
http() {
  python3 - "$@" <<'PYTHON'
import http.client, sys
line = http.client.HTTPConnection("127.0.0.1", 5000, timeout=60)
try:
    line.request(sys.argv[1], sys.argv[2], sys.argv[3] if len(sys.argv) > 3 else None, {"Authorization": "Bearer " + open("/etc/roadmark/token").read().strip()})
    answer = line.getresponse()
    print(answer.status, answer.read().decode())
except OSError as fault:
    print(fault)
PYTHON
}
healthy() { until [[ $(http GET /healthz) = 200* ]]; do sleep 0.2; done; }

# The gateway of the package roadmark-web: it comes and goes with the server, and finds it again when that was killed.
step_web() {
  local web=/usr/lib/roadmark/web table='/table/v1/car/10,50;10,50.002?sources=0&destinations=1&skip_waypoints=true'
  /usr/bin/python3 -c 'import aiohttp, osmium, polyline, prometheus_client, scipy, shapely' 2> /dev/null || { echo '        what web/install.sh installs is not here: left out'; return; }
  holds 'roadmark-web is installed' dpkg --install --force-depends /try/web.deb
  echo '<osm version="0.6"><node id="1" version="1" lat="50" lon="10"/><node id="2" version="1" lat="50.002" lon="10"/><way id="3" version="1"><nd ref="1"/><nd ref="2"/><tag k="highway" v="residential"/></way></osm>' > /try/two.osm
  systemctl stop roadmark.service
  rm -rf "$store"
  holds 'a map becomes a network' "$web/from_osm.py" /try/two.osm /var/lib/roadmark/map
  runuser -u roadmark -- roadmark create "$store" /var/lib/roadmark/map/network.gr /var/lib/roadmark/map/landmarks.ss > /dev/null
  install -d -m 700 /etc/roadmark
  head -c 24 /dev/urandom | base64 > /etc/roadmark/token
  systemctl start roadmark.service
  within 'the gateway starts' 20 systemctl enable --now roadmark-web.service
  within 'it is healthy' 40 bash "$0" --healthy
  is 'a distance' '200 {"code": "Ok", "durations": [[32.0]]}' "$(http GET "$table")"
  is 'a change by its token' '200 {"code": "Ok", "version": 1}' "$(http POST /changes '{"changes": [{"close": 1}]}')"
  is 'and what it changed' '200 {"code": "Ok", "durations": [[null]]}' "$(http GET "$table&version=1")"
  is 'an area within reach' '200' "$(http GET '/isochrone?to=10,50&within=60' | cut -c1-3)"
  is 'no pair for queries takes a change' 'no 64' "$(printf 'close 2\n' | runuser -u roadmark -- timeout 20 /usr/lib/roadmark/attach.sh /run/roadmark/asking)"
  systemctl kill --kill-whom=all --signal=KILL roadmark.service
  within 'the server killed, it is healthy again' 40 bash "$0" --healthy
  is 'with what was changed' '200 {"code": "Ok", "durations": [[null]]}' "$(http GET "$table")"
  within 'a stop of the server stops it' 20 systemctl stop roadmark.service
  is 'and it is gone' inactive "$(systemctl is-active roadmark-web.service)"
  systemctl start roadmark.service
  within 'a start of the server starts it' 40 bash "$0" --healthy
  is 'nothing of it failed' '' "$(journalctl --boot --no-pager --output cat --unit roadmark-web.service | grep -i 'traceback\|error')"
  holds "its exposure: $(exposure roadmark-web.service), below 3" awk "BEGIN { exit !($(exposure roadmark-web.service) < 3) }"
  within 'the package is purged' 60 dpkg --purge roadmark-web
  is 'no file of it is left' '' "$(find /etc/systemd /lib/systemd /usr/lib/roadmark/web -name '*roadmark-web*' 2> /dev/null)"
}

# The follower of a log takes the place of the server, and gives it back; each has a folder of its own below /run.
step_follow() {
  local roads='roadmark-follow.service roadmark-tell.socket' follow='python3 /usr/lib/roadmark/replicas/follow.py'
  command -v etcd > /dev/null || { echo '        no etcd here: left out'; return; }
  systemd-run --quiet --collect --unit try-etcd etcd --data-dir /try/etcd
  systemctl stop roadmark.service
  rm -f "$store"
  { echo 'p sp 6 9'; grep '^a' "$examples/six.gr"; echo 'a 1 1 0'; } > /try/loop.gr
  runuser -u roadmark -- roadmark create "$store" /try/loop.gr "$examples/six.ss" --room 20 > /dev/null
  within 'a log is begun' 60 runuser -u roadmark -- bash -c "until $follow --program /usr/bin/roadmark --begin 9 http://127.0.0.1:2379 roads $store; do sleep 1; done"
  systemctl start roadmark.service
  within 'the follower starts in the place of the server' 20 systemctl start roadmark-follow.service
  is 'the server has ended' 'inactive inactive inactive' "$(systemctl is-active $units | paste -sd ' ')"
  is 'a change goes through the log' 'ok 1/v 1/d 1 6 22/copied 1' "$(ask 'close 7\ndist 1 6\ncopy followed\n' 40 /run/roadmark-tell.sock)"
  systemctl kill --kill-whom=all --signal=KILL roadmark-follow.service
  is 'killed, it is back with that change' 'v 1/d 1 6 22' "$(sleep 2; timeout 40 bash -c 'until printf "dist 1 6\n" | socat -t 30 - UNIX-CONNECT:/run/roadmark-tell.sock 2> /dev/null | grep ""; do sleep 0.5; done' | paste -sd /)"
  within 'the server takes its place again' 20 systemctl start roadmark.service
  within 'and answers' 20 bash "$0" --answered 20
  is 'the follower has ended' 'inactive inactive' "$(systemctl is-active $roads | paste -sd ' ')"
  systemctl stop try-etcd
}

step_package() {
  fresh_store
  systemctl start roadmark.service
  answered 20
  ask 'set 3 77\nwait\n' > /dev/null
  within 'the package is upgraded' 60 dpkg --install /try/later.deb
  within 'a client is answered' 20 bash "$0" --answered 20
  is 'by the new program' '/usr/bin/roadmark' "$(readlink "/proc/$(main_pid)/exe")"
  is 'with what the old one was told' 'a 3 1 3 77 open' "$(ask 'arc 3\n' | sed 's/.*\///' | cut -d' ' -f1-7 | sed 's/a 3 [0-9]* [0-9]* /a 3 1 3 /')"
  within 'the package is removed' 60 dpkg --remove roadmark
  is 'its units are stopped' 'inactive inactive inactive' "$(systemctl is-active $units | sed 's/unknown/inactive/' | paste -sd ' ')"
  is 'no process of it is left' '' "$(pgrep -u roadmark)"
  holds 'the store is let go, and there' flock --exclusive --nonblock "$store" true
  within 'the package is purged' 60 dpkg --purge roadmark
  is 'no link and no file is left' '' "$(find /etc/systemd /lib/systemd /usr/lib/systemd /usr/lib/sysusers.d /usr/bin /usr/lib/roadmark /usr/share/doc /run /var/lib/systemd -name '*roadmark*' 2> /dev/null)"
}

case ${1:-} in
  --step) "step_$2"; exit ;;
  --answered) answered "$2"; exit ;;
  --healthy) healthy; exit ;;
  --health) health "$2" "$3"; exit ;;
esac
for step in install ${*:-stop comes_back burst kill no_server gone_client full_disk haproxy security follow web package}; do
  echo "$step"
  timeout -k 5 "$((100 * times))" bash "$0" --step "$step" || echo "FAILED  $step: it ended with $?"
done
# What the units told, where something failed.
! grep -q '^FAILED' /try/said || journalctl --boot --no-pager --output short-precise --unit 'roadmark*' --unit haproxy.service | grep -v 'A client of roadmark\|roadmark-client@' | tail -n 150 > /try/journal
echo "$(grep -c '^ok  ' /try/said) passed, $(grep -c '^FAILED' /try/said) failed"
