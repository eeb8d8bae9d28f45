"""The outline of an area along lines, as GeoJSON: the cells of a grid that are near to a line, and the rings around them."""
import math

import numpy
from scipy.ndimage import binary_dilation, binary_erosion
from shapely.geometry import box
from shapely.geometry.polygon import orient
from shapely.ops import unary_union

from globe import RADIUS

METRES_OF_DEGREE = math.pi * RADIUS / 180
CELLS, SMALLEST = 160, 15.0
# A cell and its eight neighbours.
NEAR = numpy.ones((3, 3), bool)

Line = list[list[float]]


class Grid:
    """Cells of some metres over the lines, with a rim of three."""

    def __init__(self, lines: list[Line]) -> None:
        points = numpy.array([point for line in lines for point in line])
        (self.west, self.south), (east, north) = points.min(0), points.max(0)
        self.scale = numpy.array([METRES_OF_DEGREE * max(0.01, math.cos(math.radians((self.south + north) / 2))), METRES_OF_DEGREE])
        extent = (numpy.array([east, north]) - [self.west, self.south]) * self.scale
        self.cell = max(SMALLEST, float(extent.max()) / CELLS)
        self.marked = numpy.zeros(tuple((extent // self.cell).astype(int) + 7), bool)
        # Each point but the last one of a line begins a piece.
        begins = numpy.delete(numpy.arange(len(points)), numpy.cumsum([len(line) for line in lines]) - 1)
        self.mark((points - [self.west, self.south]) * self.scale / self.cell, begins)

    def mark(self, places: numpy.ndarray, begins: numpy.ndarray) -> None:
        """Marks the cells along the pieces, at steps of half a cell."""
        away = places[begins + 1] - places[begins]
        steps = numpy.ceil(2 * numpy.abs(away).max(1)).astype(int)
        piece = numpy.repeat(numpy.arange(len(begins)), steps + 1)
        step = numpy.arange(len(piece)) - numpy.repeat(numpy.cumsum(steps + 1) - steps - 1, steps + 1)
        columns, rows = (places[begins][piece] + away[piece] * (step / numpy.maximum(1, steps)[piece])[:, None]).astype(int).T + 3
        self.marked[columns, rows] = True

    def grown(self) -> numpy.ndarray:
        """Each cell within two of a marked one, less a rim of one: so small gaps are closed."""
        return binary_erosion(binary_dilation(self.marked, NEAR, 2), NEAR)

    def position(self, corner: tuple[float, float]) -> list[float]:
        x, y = ((numpy.array(corner) - 3) * self.cell / self.scale).tolist()
        return [round(self.west + x, 6), round(self.south + y, 6)]


def polygons_of(grid: Grid) -> list[list[list[list[float]]]]:
    """The coordinates of a MultiPolygon around the grid's cells, each outer ring, against the clock, with its holes behind it."""
    edges = numpy.diff(numpy.pad(grid.grown(), ((0, 0), (1, 1))).astype(numpy.int8))
    runs = zip(numpy.argwhere(edges == 1).tolist(), numpy.argwhere(edges == -1).tolist())
    area = unary_union([box(column, begin, column + 1, end) for (column, begin), (_, end) in runs]).simplify(0)
    polygons = [orient(polygon) for polygon in getattr(area, "geoms", [area])]
    return [[[grid.position(corner) for corner in ring.coords] for ring in (polygon.exterior, *polygon.interiors)] for polygon in polygons if not polygon.is_empty]


def outline(lines: list[Line]) -> list[list[list[list[float]]]]:
    """The coordinates of a MultiPolygon around all lines; none where there is no line."""
    return polygons_of(Grid(lines)) if lines else []
