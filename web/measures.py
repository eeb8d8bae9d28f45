"""What `/metrics` tells, as Prometheus reads it."""
from prometheus_client import CONTENT_TYPE_LATEST as KIND
from prometheus_client import CollectorRegistry, Counter, Gauge, Histogram, generate_latest

from osrm import SERVICES
from pools import Pools
from watching import Watch

__all__ = ["KIND", "seen", "told"]

registry = CollectorRegistry()
requests = Counter("roadmark_web_requests", "Requests that were answered.", ["address", "status"], registry=registry)
seconds = Histogram("roadmark_web_seconds", "Seconds from a request to its answer.", ["address"], registry=registry, buckets=(.001, .003, .01, .03, .1, .3, 1, 3, 10, 30))
sessions = Gauge("roadmark_web_sessions", "Sessions with the server.", ["pool"], registry=registry)
queued = Gauge("roadmark_web_queued", "Requests that have a session or wait for one.", ["pool"], registry=registry)
leases = Gauge("roadmark_web_leases", "Sessions that were begun.", ["pool"], registry=registry)
listeners_now = Gauge("roadmark_web_listeners", "Pages that listen.", registry=registry)
up = Gauge("roadmark_web_server_up", "Whether the server answers.", registry=registry)
state = Gauge("roadmark_state", "The numbers of the server's line `state`.", ["field"], registry=registry)

# What is no address of these is counted as `other`, so that nobody fills the memory with names.
ADDRESSES = {*SERVICES, "isochrone", "changes", "suppose", "version", "healthz", "metrics", "events", "network", "arcs", "page", "leaflet"}


def seen(path: str, status: int, took: float) -> None:
    first = path.strip("/").partition("/")[0]
    address = first if first in ADDRESSES else "other"
    requests.labels(address, str(status)).inc()
    seconds.labels(address).observe(took)


def told(pools: Pools, watch: Watch, listeners: int) -> bytes:
    for name, pool in pools.all.items():
        sessions.labels(name).set(pool.connected)
        queued.labels(name).set(pool.queued)
        leases.labels(name).set(sum(worker.leases for worker in pool.workers))
    listeners_now.set(listeners)
    up.set(watch.connected)
    for field in watch.state:
        number = watch.number(field)
        if number is not None:
            state.labels(field).set(number)
    return generate_latest(registry)
