"""The globe on which maps are measured, and what is said where something is no map."""
import numpy

RADIUS = 6_371_009.0


class NoMap(Exception):
    """What was read is no map, or none that can be used."""


def metres(lon1: numpy.ndarray | float, lat1: numpy.ndarray | float, lon2: numpy.ndarray | float, lat2: numpy.ndarray | float) -> numpy.ndarray:
    """Along great circles, of degrees."""
    a, b = numpy.radians(lat1), numpy.radians(lat2)
    h = numpy.sin((b - a) / 2) ** 2 + numpy.cos(a) * numpy.cos(b) * numpy.sin(numpy.radians(numpy.subtract(lon2, lon1)) / 2) ** 2
    return 2 * RADIUS * numpy.arcsin(numpy.minimum(1, numpy.sqrt(h)))
