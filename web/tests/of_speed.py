"""What the gateway gives and takes: the processor time of the gateway and of the server for each request, and what one processor so gives a second; for routes beside Routino, where that is there.
By hand: the part `speed` of tools/try_web.py."""
import concurrent.futures
import http.client
import os
import pathlib
import random
import resource
import shutil
import statistics
import time

from checks import call, from_osm, skip
from stand import Stand
from towns import town

SECONDS, CLIENTS = 6, 8


def processor_seconds(process: int) -> float:
    fields = pathlib.Path("/proc", str(process), "stat").read_text().rsplit(")", 1)[1].split()
    return (int(fields[11]) + int(fields[12])) / os.sysconf("SC_CLK_TCK")


def asked(port: int, paths: list[str], until: float) -> tuple[int, list[float]]:
    """Asks one after the other over one connection; how many were answered, and the seconds of each."""
    connection, took = http.client.HTTPConnection("127.0.0.1", port, timeout=60), []
    while time.monotonic() < until:
        began = time.monotonic()
        connection.request("GET", paths[len(took) % len(paths)])
        response = connection.getresponse()
        response.read()
        if response.status == 200:
            took.append(time.monotonic() - began)
    connection.close()
    return len(took), took


def measure(stand: Stand, name: str, paths: list[str]) -> None:
    before = [processor_seconds(child.pid) for child in (stand.gateway, stand.server)]
    began = time.monotonic()
    with concurrent.futures.ThreadPoolExecutor(CLIENTS) as callers:
        done = list(callers.map(lambda number: asked(stand.port, paths[number::CLIENTS], began + SECONDS), range(CLIENTS)))
    seconds, count = time.monotonic() - began, sum(number for number, _ in done)
    gateway, server = (1000 * (processor_seconds(child.pid) - old) / count for child, old in zip((stand.gateway, stand.server), before))
    times = sorted(took for _, all_of_one in done for took in all_of_one)
    print(f"{name}: one processor gives {1000 / (gateway + server):.0f} a second: each takes {gateway:.2f} ms of the gateway and {server:.2f} ms of the server. {CLIENTS} clients had {count / seconds:.0f} a "
          f"second, median {1000 * times[len(times) // 2]:.1f} ms, of 100 the slowest {1000 * times[len(times) * 99 // 100]:.1f} ms", flush=True)


def tell_routino(path: pathlib.Path, ends: list[tuple[str, str]]) -> None:
    """Routino's router over the same map and for the same pairs, each by a call of its own, as its web front does it, with the way written as a track."""
    if not shutil.which("planetsplitter"):
        return skip("Routino: it is not there (apt-get install routino)")
    folder, own = path.parent / "routino", pathlib.Path("/usr/share/routino")
    folder.mkdir()
    call("planetsplitter", f"--dir={folder}", "--prefix=town", f"--tagging={own / 'tagging.xml'}", path)
    words = ["routino-router", f"--dir={folder}", "--prefix=town", "--quiet", "--quickest", "--profile=motorcar", "--output-gpx-track",
             *(f"--{name}={own / name}.xml" for name in ("profiles", "translations"))]
    took = []
    for one, other in ends:
        (lon1, lat1), (lon2, lat2) = one.split(","), other.split(",")
        before = resource.getrusage(resource.RUSAGE_CHILDREN)
        call(*words, f"--lon1={lon1}", f"--lat1={lat1}", f"--lon2={lon2}", f"--lat2={lat2}", cwd=folder)
        after = resource.getrusage(resource.RUSAGE_CHILDREN)
        took.append(1000 * (after.ru_utime + after.ru_stime - before.ru_utime - before.ru_stime))
    print(f"routes by Routino: one processor gives {1000 / statistics.mean(took):.0f} a second: each takes {statistics.mean(took):.2f} ms", flush=True)


def tell_speed(folder: pathlib.Path, program: pathlib.Path, side: int) -> None:
    path, made = town(folder / "measured.osm", side), folder / "measured"
    began, before = time.monotonic(), time.process_time()
    from_osm(path, made)
    nodes = (made / "nodes.csv").read_bytes().count(b"\n") - 1
    print(f"from_osm of {path.stat().st_size / 1e6:.0f} MB: {time.monotonic() - began:.1f} s, {time.process_time() - before:.1f} of the processor, {nodes} nodes", flush=True)
    dice = random.Random(3)
    with Stand(folder / "speed-stand", program, made, "--seconds", 60) as stand:
        west, south, east, north = stand.get("network").json["bounds"]

        def places(count: int) -> str:
            return ";".join(f"{dice.uniform(west, east):.6f},{dice.uniform(south, north):.6f}" for _ in range(count))
        # So many that nothing is asked twice, since a server keeps rows that it has computed.
        pairs = [(places(1), places(1)) for _ in range(8000)]
        measure(stand, "nearest", [f"/nearest/v1/car/{one}" for one, _ in pairs])
        measure(stand, "table of 1 by 1", [f"/table/v1/car/{one};{other}?sources=0&destinations=1" for one, other in pairs[:4000]])
        measure(stand, "table of 10 by 10", [f"/table/v1/car/{places(10)}" for _ in range(2000)])
        measure(stand, "route of two places", [f"/route/v1/car/{one};{other}?geometries=geojson&overview=full&annotations=nodes" for one, other in pairs[4000:]])
        tell_routino(path, pairs[-200:])
