"""Tests of web/outlines.py: areas of random cells, whose outline has just these cells inside."""
import random

import numpy

import outlines
from checks import Checks, equal


class Cells:
    """Cells in the place of a grid over lines."""

    def __init__(self, cells: numpy.ndarray) -> None:
        self.cells = cells

    def grown(self) -> numpy.ndarray:
        return self.cells

    def position(self, corner: tuple[int, int]) -> list[float]:
        return [float(number) for number in corner]


def inside(polygon: list, x: float, y: float) -> bool:
    """By the crossings of all its rings."""
    return sum((y1 > y) != (y2 > y) and x < x1 + (x2 - x1) * (y - y1) / (y2 - y1) for ring in polygon for (x1, y1), (x2, y2) in zip(ring, ring[1:])) % 2 == 1


def random_cells() -> None:
    """Each cell that is marked is in one polygon, and no other cell is in any; rings are closed, and the outer one comes first and goes against the clock."""
    dice = random.Random(1)
    for _ in range(150):
        size, share = dice.randrange(1, 9), dice.choice((0.3, 0.6, 0.9))
        cells = numpy.array([[dice.random() < share for _ in range(size)] for _ in range(size)])
        polygons = outlines.polygons_of(Cells(cells))
        for column in range(size):
            for row in range(size):
                equal(sum(inside(polygon, column + 0.5, row + 0.5) for polygon in polygons), int(cells[column, row]), f"cell {column}, {row} of {cells.tolist()}")
        for polygon in polygons:
            turns = [sum(x1 * y2 - x2 * y1 for (x1, y1), (x2, y2) in zip(ring, ring[1:])) > 0 for ring in polygon]
            equal((turns, [ring[0] == ring[-1] for ring in polygon]), ([True] + [False] * (len(polygon) - 1), [True] * len(polygon)))


def small_areas() -> None:
    """A point, a straight road and nothing have an outline too."""
    equal(outlines.outline([]), [])
    for line in ([[13.0, 52.0], [13.0, 52.0]], [[13.0, 52.0], [13.1, 52.0]], [[-179.9, -89.9], [-179.9, -89.8]]):
        [[ring]] = outlines.outline([line])
        equal(all(inside([ring], lon + 1e-9, lat + 1e-9) for lon, lat in line), True, str(line))


def try_outlines(checks: Checks) -> None:
    checks.run("gateway: outlines of random cells", random_cells)
    checks.run("gateway: outlines of small areas", small_areas)
