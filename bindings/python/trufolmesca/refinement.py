"""The refinement calls: a label's corners, on a photograph or through a camera, marked or not, under settings or the defaults."""
from __future__ import annotations

from dataclasses import dataclass
from typing import Any

import numpy as np
from numpy.typing import ArrayLike, NDArray

from .arguments import flag, modules_and_dimension, numbers, photograph_arguments
from .library import call
from .photograph import Camera, camera_arguments, seen_under
from .refusal import Marks, demand
from .settings import Settings

Flags = tuple[bool, bool, bool, bool]


@dataclass(frozen=True)
class Edge:
    """What was found of one edge: points probed, points in its line, points dropped, and its verdict."""

    probed: int
    fit: int
    dropped: int
    valid: bool


@dataclass(frozen=True, eq=False)
class Answer:
    """A refinement's answer.

    corners  4 by 2, in the photograph's pixels, through a camera in rectified ones
    refined  for each corner whether it was refined, or is as rough as it came
    edges    of the top, the right, the bottom and the left edge
    """

    corners: NDArray[np.float64]
    refined: Flags
    edges: tuple[Edge, Edge, Edge, Edge]


@dataclass(frozen=True, eq=False)
class Marked(Answer):
    """An answer with the sheet and the copy of the photograph."""

    marks: Marks


def _label(modules: ArrayLike, corners: ArrayLike, scale: ArrayLike, inverted: bool) -> tuple[object, ...]:
    """The arguments of a call that tell of the label: modules, dimension, scales, corners, polarity."""
    return (*modules_and_dimension(modules), *numbers("the scale", scale, 2), numbers("the corners", corners, 4, 2),
            flag("inverted", inverted))


def _asked(marking: str, seen: tuple[object, ...], settings: Settings | None) -> tuple[str, tuple[object, ...]]:
    """The call for what is given, a camera or none, settings or the defaults, and what it takes behind the label."""
    if settings is None:
        return f"refine_corners{'_mapped' if seen else ''}{marking}", seen
    return f"refine_corners{marking}_with", seen_under(settings, seen)


def _refined(name: str, *arguments: object, marks: Marks | None = None) -> dict[str, Any]:
    """Calls a refinement, lends it sheet and copy if it marks, and gives the fields of its answer."""
    places, counts = np.zeros(8), np.zeros(20, np.uint32)
    lent = () if marks is None else (marks.sheet, marks.copy)
    demand(call(name, *arguments, places, counts, *lent), marks)
    rows = counts[:16].reshape(4, 4).tolist()
    return {
        "corners": places.reshape(4, 2),
        "refined": tuple(bool(one) for one in counts[16:]),
        "edges": tuple(Edge(probed, fit, dropped, bool(valid)) for probed, fit, dropped, valid in rows),
    }


def _plain(picture: ArrayLike, label: tuple[object, ...], seen: tuple[object, ...], settings: Settings | None) -> Answer:
    """A refinement that does not mark."""
    name, more = _asked("", seen, settings)
    return Answer(**_refined(name, *photograph_arguments(picture), *label, *more))


def _marked(picture: ArrayLike, label: tuple[object, ...], seen: tuple[object, ...], settings: Settings | None) -> Marked:
    """A refinement that marks, with a sheet and a copy that nobody else has."""
    name, more = _asked("_marking", seen, settings)
    pixels, width, height, stride = photograph_arguments(picture)
    marks = Marks(np.zeros((height, width), np.uint8), np.zeros((height, width), np.uint8))
    return Marked(**_refined(name, pixels, width, height, stride, *label, *more, marks=marks), marks=marks)


def refine_corners(picture: ArrayLike, modules: ArrayLike, corners: ArrayLike, *, scale: ArrayLike = (1.0, 1.0),
                   inverted: bool = False, settings: Settings | None = None) -> Answer:
    """A label's corners, refined on the photograph; without settings by the defaults."""
    return _plain(picture, _label(modules, corners, scale, inverted), (), settings)


def refine_corners_mapped(picture: ArrayLike, modules: ArrayLike, corners: ArrayLike, camera: Camera, *, scale: ArrayLike = (1.0, 1.0),
                          inverted: bool = False, settings: Settings | None = None) -> Answer:
    """The same through a camera: corners and answer are of the rectified picture."""
    return _plain(picture, _label(modules, corners, scale, inverted), camera_arguments(camera), settings)


def refine_corners_marking(picture: ArrayLike, modules: ArrayLike, corners: ArrayLike, *, scale: ArrayLike = (1.0, 1.0),
                           inverted: bool = False, settings: Settings | None = None) -> Marked:
    """A label's corners, with the sheet of what was read and the blanked copy; without settings by the defaults."""
    return _marked(picture, _label(modules, corners, scale, inverted), (), settings)


def refine_corners_mapped_marking(picture: ArrayLike, modules: ArrayLike, corners: ArrayLike, camera: Camera, *,
                                  scale: ArrayLike = (1.0, 1.0), inverted: bool = False, settings: Settings | None = None) -> Marked:
    """The same through a camera; sheet and copy are of the photograph."""
    return _marked(picture, _label(modules, corners, scale, inverted), camera_arguments(camera), settings)
