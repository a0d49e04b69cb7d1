"""Cameras, and the calls that read one place or one profile of a photograph."""
from __future__ import annotations

from dataclasses import astuple, dataclass
from enum import IntEnum

import numpy as np
from numpy.typing import ArrayLike, NDArray

from .arguments import byte, flag, instance, number, numbers, photograph_arguments
from .library import call
from .refusal import demand
from .settings import Settings, settings_argument


@dataclass(frozen=True)
class Intrinsics:
    """Focal lengths and principal point of a camera, in pixels."""

    fx: float
    fy: float
    cx: float
    cy: float


@dataclass(frozen=True)
class Lens:
    """The distortion of a lens by Brown and Conrady, in OpenCV's order."""

    k1: float
    k2: float
    p1: float
    p2: float
    k3: float


@dataclass(frozen=True)
class Fisheye:
    """The distortion of a fisheye lens, as OpenCV has it; of four zeros it is the equidistant one."""

    k1: float
    k2: float
    k3: float
    k4: float


@dataclass(frozen=True)
class Camera:
    """The camera of the photograph (source), of the picture it is rectified to, and the lens."""

    source: Intrinsics
    rectified: Intrinsics
    lens: Lens | Fisheye | None = None


class Border(IntEnum):
    """What a sample outside of the picture does."""

    REJECT = 0
    CLAMP = 1
    CONSTANT = 2


@dataclass(frozen=True)
class EdgePoint:
    """A point on an edge, and how much it counts."""

    x: float
    y: float
    weight: float


def camera_arguments(camera: Camera) -> tuple[NDArray[np.float64], int]:
    """A camera as its list of numbers, and the kind of its lens: 0 none, 1 Brown and Conrady's, 2 a fisheye."""
    instance("the camera", camera, Camera)
    instance("the camera's source", camera.source, Intrinsics)
    instance("the camera's rectified picture", camera.rectified, Intrinsics)
    values = (*astuple(camera.source), *astuple(camera.rectified))
    if camera.lens is None:
        return numbers("the camera", values, 8), 0
    instance("the camera's lens", camera.lens, Lens, Fisheye)
    values += astuple(camera.lens)
    return numbers("the camera", values, len(values)), 2 if isinstance(camera.lens, Fisheye) else 1


def seen_under(settings: Settings, seen: tuple[object, ...]) -> tuple[object, ...]:
    """Camera and settings, as a call under settings takes them: where there is no camera its list is empty."""
    return (*(seen or (np.zeros(0), 0)), settings_argument(settings))


def rectified_to_source(camera: Camera, x: float, y: float) -> tuple[float, float]:
    """Where a place of the rectified picture lies in the photograph."""
    out = np.zeros(2)
    demand(call("rectified_to_source", *camera_arguments(camera), number("x", x), number("y", y), out))
    return float(out[0]), float(out[1])


def sample_bilinear(picture: ArrayLike, x: float, y: float, border: Border = Border.REJECT,
                    constant: int = 0) -> float:
    """The value of a picture at x, y, between its four nearest pixels."""
    out = np.zeros(1)
    demand(call("sample_bilinear", *photograph_arguments(picture), number("x", x), number("y", y), int(Border(border)),
                byte("the constant", constant), out))
    return float(out[0])


def _profile(place: ArrayLike, normal: ArrayLike, step: float, inverted: bool, inward_differs: bool) -> tuple[object, ...]:
    """A profile as the calls take it: its place, direction, step and polarity."""
    return (*numbers("the place", place, 2), *numbers("the normal", normal, 2), number("the step", step),
            flag("inverted", inverted), flag("inward_differs", inward_differs))


def _localized(picture: ArrayLike, profile: tuple[object, ...], seen: tuple[object, ...], settings: Settings | None) -> EdgePoint:
    """An edge point, by the call for what is given: a camera or none, settings or the defaults."""
    name = "localize_edge_point_mapped" if seen else "localize_edge_point"
    if settings is not None:
        name, seen = "localize_edge_point_with", seen_under(settings, seen)
    out = np.zeros(3)
    demand(call(name, *photograph_arguments(picture), *profile, *seen, out))
    return EdgePoint(*out.tolist())


def localize_edge_point(picture: ArrayLike, place: ArrayLike, normal: ArrayLike, step: float, inverted: bool = False,
                        inward_differs: bool = False, *, settings: Settings | None = None) -> EdgePoint:
    """The point of an edge along its normal, near a place of the photograph; without settings by the defaults."""
    return _localized(picture, _profile(place, normal, step, inverted, inward_differs), (), settings)


def localize_edge_point_mapped(picture: ArrayLike, camera: Camera, place: ArrayLike, normal: ArrayLike, step: float,
                               inverted: bool = False, inward_differs: bool = False, *,
                               settings: Settings | None = None) -> EdgePoint:
    """The same through a camera: place, normal and answer are of the rectified picture."""
    return _localized(picture, _profile(place, normal, step, inverted, inward_differs), camera_arguments(camera), settings)
