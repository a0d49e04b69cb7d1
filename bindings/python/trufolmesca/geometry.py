"""Maps of the plane and lines: the calls that read no picture."""
from __future__ import annotations

from dataclasses import dataclass

import numpy as np
from numpy.typing import ArrayLike, NDArray

from .arguments import instance, number, numbers
from .library import call
from .refusal import demand

Map = NDArray[np.float64]


@dataclass(frozen=True)
class Line:
    """A line: a point on it (the centroid of what it was fitted to) and its direction."""

    point: tuple[float, float]
    direction: tuple[float, float]


def square_to_quad(corners: ArrayLike) -> Map:
    """The map of the unit square to four corners, as a 3 by 3 matrix for column vectors."""
    out = np.zeros(9)
    demand(call("square_to_quad", numbers("the corners", corners, 4, 2), out))
    return out.reshape(3, 3)


def quad_to_quad(source: ArrayLike, target: ArrayLike) -> Map:
    """The map of one quadrilateral to another."""
    out = np.zeros(9)
    demand(call("quad_to_quad", numbers("the source", source, 4, 2), numbers("the target", target, 4, 2), out))
    return out.reshape(3, 3)


def map_point(map_: ArrayLike, u: float, v: float) -> tuple[float, float]:
    """Where a map sends the point u, v."""
    out = np.zeros(2)
    call("map", numbers("the map", map_, 3, 3), number("u", u), number("v", v), out)
    return float(out[0]), float(out[1])


def scaled(sx: float, sy: float) -> Map:
    """The map that scales by sx and sy."""
    out = np.zeros(9)
    call("scaled", number("sx", sx), number("sy", sy), out)
    return out.reshape(3, 3)


def inverse(map_: ArrayLike) -> Map:
    """The inverse of a map, up to a factor."""
    out = np.zeros(9)
    call("inverse", numbers("the map", map_, 3, 3), out)
    return out.reshape(3, 3)


def then(inner: ArrayLike, outer: ArrayLike) -> Map:
    """The map that does the inner map first and then the outer."""
    out = np.zeros(9)
    call("then", numbers("the inner map", inner, 3, 3), numbers("the outer map", outer, 3, 3), out)
    return out.reshape(3, 3)


def fit_line_tls_weighted(points: ArrayLike, weights: ArrayLike) -> Line:
    """The line through weighted points, by total least squares."""
    places = numbers("the points", points, None, 2).reshape(-1, 2)
    xs, ys = np.ascontiguousarray(places.T)
    out = np.zeros(4)
    demand(call("fit_line_tls_weighted", xs, ys, numbers("the weights", weights, None), out))
    return Line((float(out[0]), float(out[1])), (float(out[2]), float(out[3])))


def intersect_lines(first: Line, second: Line) -> tuple[float, float]:
    """Where two lines cross."""
    out = np.zeros(2)
    demand(call("intersect_lines", _line("the first", first), _line("the second", second), out))
    return float(out[0]), float(out[1])


def _line(what: str, line: Line) -> NDArray[np.float64]:
    """A line as its list of four numbers."""
    instance(what, line, Line)
    return numbers(what, (line.point, line.direction), 2, 2)


def sqrt(x: float) -> float:
    """The square root, rounded once."""
    return float(call("sqrt", number("x", x)))
