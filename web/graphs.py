"""From roads to a network: roads are cut where they meet, nodes are numbered, the largest part that hangs together is kept, and landmarks are taken far apart."""
from dataclasses import dataclass

import numpy
from scipy.sparse import coo_matrix, csr_matrix
from scipy.sparse.csgraph import connected_components, dijkstra

from globe import metres
from roads import Progress, Roads

LONGEST = 2_147_483_647
# Lengths in these units are tenths: of a second, of a metre.
TENTHS = 10


@dataclass
class Network:
    """Node i is at point `places[i]` of the roads. Arc j leads from `tails[j]` to `heads[j]` (from 0) along the piece `pieces[j]`, the other way round where `turned[j]`; a piece has the points
    from `begins` to `ends`, both among them."""

    places: numpy.ndarray
    tails: numpy.ndarray
    heads: numpy.ndarray
    lengths: numpy.ndarray
    pieces: numpy.ndarray
    turned: numpy.ndarray
    begins: numpy.ndarray
    ends: numpy.ndarray
    metres: numpy.ndarray
    roads_of: numpy.ndarray

    def matrix(self) -> csr_matrix:
        """Of parallel arcs the shortest; no length is 0."""
        order = numpy.lexsort((self.lengths, self.heads, self.tails))
        tails, heads = self.tails[order], self.heads[order]
        first = numpy.ones(len(order), bool)
        first[1:] = (tails[1:] != tails[:-1]) | (heads[1:] != heads[:-1])
        count = len(self.places)
        return coo_matrix((self.lengths[order][first].astype(float), (tails[first], heads[first])), shape=(count, count)).tocsr()


def steps_of(roads: Roads) -> numpy.ndarray:
    """The metres from each point to the next one, 0 from the last one of a road."""
    lons, lats = (numpy.frombuffer(values, numpy.int32) / 1e7 for values in (roads.lons, roads.lats))
    steps = numpy.zeros(len(lons))
    steps[:-1] = metres(lons[:-1], lats[:-1], lons[1:], lats[1:])
    steps[numpy.frombuffer(roads.starts, numpy.int64)[1:] - 1] = 0
    return steps


def cut_long(cut: numpy.ndarray, steps: numpy.ndarray, every: float) -> None:
    """Cuts also at the first point that is so many metres behind a cut."""
    cuts = numpy.flatnonzero(cut)
    for begin in cuts[:-1][numpy.add.reduceat(steps, cuts)[:-1] > every].tolist():
        behind, place = 0.0, begin
        while not cut[place + 1]:
            behind, place = behind + steps[place], place + 1
            if behind >= every:
                cut[place], behind = True, 0.0


def pieces_of(roads: Roads, steps: numpy.ndarray, every: float) -> tuple[numpy.ndarray, numpy.ndarray, numpy.ndarray, numpy.ndarray]:
    """The first and the last point of each piece, its road, and whether the nodes at its two ends are passed by nobody."""
    refs = numpy.frombuffer(roads.refs, numpy.int64)
    starts = numpy.frombuffer(roads.starts, numpy.int64)
    lasts = numpy.append(starts[1:], len(refs)) - 1
    _, inverse, counts = numpy.unique(refs, return_inverse=True, return_counts=True)
    barrier = numpy.isin(refs, numpy.fromiter(roads.barriers, numpy.int64, len(roads.barriers)))
    cut = (counts[inverse] > 1) | barrier
    cut[starts] = cut[lasts] = True
    if every:
        cut_long(cut, steps, every)
    cuts = numpy.flatnonzero(cut)
    # From each cut to the next one, but from the last point of a road to the first of the next.
    inside = ~numpy.isin(cuts, lasts)
    begins, ends = cuts[inside], cuts[numpy.flatnonzero(inside) + 1]
    return begins, ends, numpy.searchsorted(starts, begins, "right") - 1, numpy.stack([barrier[begins], barrier[ends]])


def numbered(roads: Roads, begins: numpy.ndarray, ends: numpy.ndarray, stops: numpy.ndarray) -> tuple[numpy.ndarray, numpy.ndarray]:
    """The place of each node, in the order in which the pieces come to them, and the nodes of each piece's two ends. Who comes to a barrier has a node of his own there."""
    refs = numpy.frombuffer(roads.refs, numpy.int64)
    points = numpy.stack([begins, ends], 1).ravel()
    alone = stops.T.ravel()
    keys = numpy.stack([refs[points], numpy.where(alone, numpy.arange(1, len(points) + 1), 0)], 1)
    _, index, inverse = numpy.unique(keys, axis=0, return_index=True, return_inverse=True)
    order = numpy.argsort(index)
    number = numpy.empty(len(order), numpy.int64)
    number[order] = numpy.arange(len(order))
    return points[index[order]], number[inverse.ravel()].reshape(-1, 2)


def network_of(roads: Roads, by: str, every: float) -> Network:
    """All roads as arcs, each piece forwards and then backwards. A length is rounded, and no less than 1."""
    steps = steps_of(roads)
    begins, ends, road, stops = pieces_of(roads, steps, every)
    places, nodes = numbered(roads, begins, ends, stops)
    metres, whole = numpy.add.reduceat(steps, begins), numpy.add.reduceat(steps, numpy.frombuffer(roads.starts, numpy.int64))
    speeds = numpy.stack([numpy.frombuffer(values, float)[road] for values in (roads.forward, roads.backward)], 1)
    seconds = numpy.frombuffer(roads.seconds, float)[road]
    with numpy.errstate(divide="ignore", invalid="ignore"):
        times = numpy.where(numpy.isnan(seconds)[:, None], metres[:, None] * 3.6 / speeds, (seconds * metres / numpy.maximum(whole[road], 1e-9))[:, None])
    amounts = (times if by == "time" else numpy.repeat(metres[:, None], 2, 1)).ravel()
    used = numpy.flatnonzero(speeds.ravel() > 0)
    lengths = numpy.clip(numpy.rint(amounts[used] * TENTHS), 1, LONGEST).astype(numpy.int64)
    piece, turned = used // 2, used % 2 == 1
    return Network(places, nodes[piece, turned.astype(int)], nodes[piece, 1 - turned.astype(int)], lengths, piece, turned, begins, ends, metres, road)


def strong_part(network: Network) -> numpy.ndarray:
    """Which nodes are in the largest part in which each node leads to each; of parts of one size, the one with the first node."""
    _, labels = connected_components(network.matrix(), connection="strong")
    _, firsts, counts = numpy.unique(labels, return_index=True, return_counts=True)
    largest = max(range(len(counts)), key=lambda part: (counts[part], -firsts[part]))
    return labels == largest


def kept(network: Network, nodes: numpy.ndarray) -> Network:
    """The network of these nodes, and of the arcs between them, in their order."""
    number = numpy.cumsum(nodes) - 1
    arcs = nodes[network.tails] & nodes[network.heads]
    return Network(network.places[nodes], number[network.tails[arcs]], number[network.heads[arcs]], network.lengths[arcs], network.pieces[arcs], network.turned[arcs],
                   network.begins, network.ends, network.metres, network.roads_of)


def landmarks(network: Network, count: int, part: numpy.ndarray, progress: Progress) -> list[int]:
    """Nodes of the part far apart: the one that is farthest from its first node, and then always the one that is farthest from all that were taken; of two as far, the first."""
    matrix = network.matrix()
    nearest = numpy.where(part, dijkstra(matrix, indices=int(numpy.flatnonzero(part)[0])), -1)
    taken: list[int] = []
    while len(taken) < min(count, int(part.sum())):
        taken.append(int(numpy.argmax(nearest)))
        distances = numpy.where(part, dijkstra(matrix, indices=taken[-1]), -1)
        nearest = distances if len(taken) == 1 else numpy.minimum(nearest, distances)
        nearest[taken] = -1
        progress.tell(f"landmark {len(taken)} of {count}")
    return sorted(taken)
