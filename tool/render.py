"""Rendered photographs of QR labels whose corners are known, for the tests and for bench/accuracy.

    picture, corners, grid = render(Label("FIND 1234"), quad((200, 150), side=160, angle=8), (400, 300), blur=0.8, noise=2)

Places are in pixels of the picture, x to the right and y down, and the centre of the first pixel is (0, 0). The corners are those of
the label's outermost modules, in the order top left, top right, bottom right, bottom left of the label as it is read.

A pixel is the mean of the scene over its square; the Gaussian of `blur` comes on top of that, then the noise, then rounding.
"""
from dataclasses import dataclass
from functools import lru_cache
from typing import Callable, NamedTuple, Optional, Tuple, Union

import cv2
import numpy as np

Level = Union[float, Tuple[float, float, float]]
SAMPLES = 144  # with 89 the Fibonacci lattice: no two samples of a pixel share a column or a row, so an upright edge is not rounded
LATTICE = np.column_stack([(np.arange(SAMPLES) + 0.5) / SAMPLES, (np.arange(SAMPLES) * 89 + 0.5) % SAMPLES / SAMPLES]) - 0.5


@dataclass(frozen=True)
class Label:
    """A printed label: its text, its QR version (1 to 40, which gives 17 + 4 x version modules a side) and its inks.

    `dark` and `light` are grey levels, or three of them (blue, green, red) for a picture in colour. `inverted` prints the dark modules
    in the light ink on a dark card. `quiet` is the card's margin around the modules, in modules.
    """
    text: str = "FIND 1234"
    version: int = 1
    inverted: bool = False
    dark: Level = 30.0
    light: Level = 220.0
    quiet: float = 4.0

    @classmethod
    def of_dim(cls, dim: int, **rest) -> "Label":
        """The label of so many modules a side: 21, 25, .. 177."""
        if dim % 4 != 1 or not 21 <= dim <= 177:
            raise ValueError(f"no QR label has {dim} modules a side")
        return cls(version=(dim - 17) // 4, **rest)

    @property
    def dim(self) -> int:
        """How many modules a side has."""
        return 17 + 4 * self.version

    @property
    def grid(self) -> np.ndarray:
        """The modules by rows, 1 dark, as in the QR code's definition: an inverted label has the same grid."""
        return encoded(self.text, self.version).copy()

    @property
    def inks(self) -> Tuple[Level, Level]:
        """The levels at which modules of 1 and the card with its modules of 0 are printed."""
        return (self.light, self.dark) if self.inverted else (self.dark, self.light)


@dataclass(frozen=True)
class Camera:
    """A camera as the library takes it: fx, fy, cx, cy of the photograph and of the rectified picture, and k1, k2, p1, p2, k3, or of
    a fisheye k1, k2, k3, k4."""
    source: Tuple[float, float, float, float]
    rectified: Tuple[float, float, float, float]
    lens: Tuple[float, ...] = (0.0, 0.0, 0.0, 0.0, 0.0)

    @classmethod
    def of_size(cls, size: Tuple[int, int], lens=(-0.18, 0.06, 0.0008, -0.0006, -0.01)) -> "Camera":
        """A camera in the middle of a picture of this width and height, with the barrel of a cheap wide angle unless told otherwise."""
        width, height = size
        middle = (0.9 * width, 0.9 * width, (width - 1) / 2, (height - 1) / 2)
        return cls(middle, middle, tuple(lens))


class Rendered(NamedTuple):
    """A rendered photograph, the true corners in its pixels, and the label's modules."""
    picture: np.ndarray
    corners: np.ndarray
    grid: np.ndarray


class Coverage(NamedTuple):
    """For each pixel, the part of it that shows modules of 1, and the part that shows the card, those modules among it."""
    ink: np.ndarray
    card: np.ndarray


def render(label: Label, corners, size: Tuple[int, int], blur: float = 0.7, noise: float = 0.0, camera: Optional[Camera] = None,
           background: Union[Level, np.ndarray] = 150.0, seed: int = 0) -> Rendered:
    """A photograph of the label with its corners at known places.

    corners     four pairs in the picture's pixels; with a camera in rectified pixels, and what is returned is in the photograph's
    size        width and height of the picture
    blur        the Gaussian's standard deviation in pixels, 0 for none
    noise       the standard deviation of the noise in grey levels, 0 for none
    camera      the lens that bends the picture, or None
    background  what lies behind the card: a level, three of them, or a picture of that size
    seed        the noise's: the same arguments give the same picture
    """
    corners = np.asarray(corners, float).reshape(4, 2)
    scene = paint(canvas(background, size), label, coverage(label, corners, size, camera))
    if blur > 0:
        scene = cv2.GaussianBlur(scene, (0, 0), blur, borderType=cv2.BORDER_REPLICATE)
    if noise > 0:
        scene = scene + np.random.default_rng(seed).normal(0.0, noise, scene.shape)
    places = corners if camera is None else distorted(camera, corners)
    return Rendered(np.clip(np.rint(scene), 0, 255).astype(np.uint8), places, label.grid)


def quad(centre: Tuple[float, float], side: float, angle: float = 0.0, tilt: float = 0.0, towards: float = 90.0) -> np.ndarray:
    """Corners of a square label, turned by `angle` degrees and tilted out of the picture's plane by `tilt` degrees.

    It is seen from six of its sides away, and `towards` is the direction in the picture, in degrees, in which it leans back.
    """
    turn, lean, back = np.deg2rad([angle, towards, tilt])
    flat = np.array([[-0.5, -0.5], [0.5, -0.5], [0.5, 0.5], [-0.5, 0.5]]) @ rotation(turn).T
    along, across = (flat @ rotation(lean)).T
    depth = 1.0 + along * np.sin(back) / 6.0
    seen = np.column_stack([along * np.cos(back) / depth, across / depth])
    return np.asarray(centre, float) + side * seen @ rotation(lean).T


def coverage(label: Label, corners, size: Tuple[int, int], camera: Optional[Camera] = None) -> Coverage:
    """How much of each pixel the label's dark modules and its card cover."""
    width, height = size
    to_label = label_map(corners, label.dim, camera)
    ink, card = np.zeros((height, width)), np.zeros((height, width))
    left, top, right, bottom = reach(label, corners, size, camera)
    if left >= right or top >= bottom:
        return Coverage(ink, card)
    ys, xs = np.mgrid[top:bottom, left:right].astype(float)
    ink[top:bottom, left:right], card[top:bottom, left:right] = covered(label, to_label, xs, ys)
    return Coverage(ink, card)


def paint(scene: np.ndarray, label: Label, cover: Coverage) -> np.ndarray:
    """The scene with the label laid on it."""
    one, zero = (np.asarray(ink, float) for ink in label.inks)
    ink, card = (part[..., None] if scene.ndim == 3 else part for part in cover)
    return scene * (1.0 - card) + zero * (card - ink) + one * ink


def distorted(camera: Camera, places) -> np.ndarray:
    """Where rectified places lie in the photograph, by the lens's model."""
    fx, fy, cx, cy = camera.rectified
    x, y = (np.asarray(places, float) - [cx, cy]).T / np.array([[fx], [fy]])
    bent_x, bent_y = bent(camera.lens, x, y)
    fx, fy, cx, cy = camera.source
    return np.column_stack([fx * bent_x + cx, fy * bent_y + cy])


def undistorted(camera: Camera, places) -> np.ndarray:
    """The rectified places that lie in the photograph at these, by Newton's steps on the model itself."""
    fx, fy, cx, cy = camera.source
    goal_x, goal_y = (np.asarray(places, float) - [cx, cy]).T / np.array([[fx], [fy]])
    x, y = goal_x.copy(), goal_y.copy()
    for _ in range(20):
        miss_x, miss_y, slopes = missed(camera.lens, x, y, goal_x, goal_y)
        if np.hypot(miss_x, miss_y).max(initial=0.0) < 1e-12:
            fx, fy, cx, cy = camera.rectified
            return np.column_stack([fx * x + cx, fy * y + cy])
        (xx, xy), (yx, yy) = slopes
        whole = xx * yy - xy * yx
        x, y = x - (yy * miss_x - xy * miss_y) / whole, y - (xx * miss_y - yx * miss_x) / whole
    raise ValueError("this lens folds the picture over: not every pixel of it shows one place")


def bent(lens, x, y):
    """Normalised coordinates as the lens bends them; written apart from tool/camera.py, so that tests hold one against the other."""
    if len(lens) == 4:
        scale, _ = fisheye_scale(lens, np.hypot(x, y))
        return x * scale, y * scale
    k1, k2, p1, p2, k3 = lens
    square = x * x + y * y
    radial = 1.0 + square * (k1 + square * (k2 + square * k3))
    return (x * radial + 2 * p1 * x * y + p2 * (square + 2 * x * x),
            y * radial + p1 * (square + 2 * y * y) + 2 * p2 * x * y)


def missed(lens, x, y, goal_x, goal_y):
    """How far the bent place is from its goal, and the bending's four slopes there."""
    bent_x, bent_y = bent(lens, x, y)
    if len(lens) == 4:
        radial, growth = fisheye_scale(lens, np.hypot(x, y))
        slopes = ((radial + x * x * growth, x * y * growth), (x * y * growth, radial + y * y * growth))
        return bent_x - goal_x, bent_y - goal_y, slopes
    k1, k2, p1, p2, k3 = lens
    square = x * x + y * y
    radial = 1.0 + square * (k1 + square * (k2 + square * k3))
    growth = 2.0 * (k1 + square * (2 * k2 + square * 3 * k3))
    mixed = x * y * growth + 2 * p1 * x + 2 * p2 * y
    slopes = ((radial + x * x * growth + 2 * p1 * y + 6 * p2 * x, mixed), (mixed, radial + y * y * growth + 6 * p1 * y + 2 * p2 * x))
    return bent_x - goal_x, bent_y - goal_y, slopes


def fisheye_scale(lens, r):
    """By how much a fisheye scales a place at the distance r from the axis, and that scale's slope over r, divided by r."""
    k1, k2, k3, k4 = lens
    angle = np.arctan(r)
    bent_angle = angle + k1 * angle ** 3 + k2 * angle ** 5 + k3 * angle ** 7 + k4 * angle ** 9
    slope = (1 + 3 * k1 * angle ** 2 + 5 * k2 * angle ** 4 + 7 * k3 * angle ** 6 + 9 * k4 * angle ** 8) / (1 + r * r)
    far = np.maximum(r, 1e-9)
    scale = np.where(r > 1e-9, bent_angle / far, 1.0)
    return scale, np.where(r > 1e-9, (slope - scale) / far ** 2, 0.0)


def canvas(background: Union[Level, np.ndarray], size: Tuple[int, int]) -> np.ndarray:
    """The scene before the label: one level all over, one colour, or a picture of this size."""
    width, height = size
    levels = np.asarray(background, float)
    if levels.ndim >= 2:
        if levels.shape[:2] != (height, width):
            raise ValueError(f"the background has {levels.shape[1]} by {levels.shape[0]} pixels, the picture {width} by {height}")
        return levels
    return np.broadcast_to(levels, (height, width) + levels.shape).copy()


def rotation(angle: float) -> np.ndarray:
    """The matrix that turns by an angle in radians."""
    return np.array([[np.cos(angle), -np.sin(angle)], [np.sin(angle), np.cos(angle)]])


def homography(dim: int, corners) -> np.ndarray:
    """The map of module coordinates, 0 to dim, to these corners, in double precision."""
    square = np.array([[0, 0], [dim, 0], [dim, dim], [0, dim]], float)
    rows, goals = [], []
    for (u, v), (x, y) in zip(square, np.asarray(corners, float)):
        rows += [[u, v, 1, 0, 0, 0, -u * x, -v * x], [0, 0, 0, u, v, 1, -u * y, -v * y]]
        goals += [x, y]
    return np.append(np.linalg.solve(np.array(rows), np.array(goals)), 1.0).reshape(3, 3)


def label_map(corners, dim: int, camera: Optional[Camera]) -> Callable:
    """The map of places in the picture to module coordinates."""
    inverse = np.linalg.inv(homography(dim, corners))

    def to_label(x: np.ndarray, y: np.ndarray):
        if camera is not None:
            x, y = undistorted(camera, np.column_stack([x.ravel(), y.ravel()])).T.reshape((2,) + x.shape)
        (a, b, c), (d, e, f), (g, h, i) = inverse
        scale = g * x + h * y + i
        return (a * x + b * y + c) / scale, (d * x + e * y + f) / scale

    return to_label


def reach(label: Label, corners, size: Tuple[int, int], camera: Optional[Camera]):
    """The part of the picture that the card can cover: left, top, right, bottom."""
    margin = np.linspace(-label.quiet, label.dim + label.quiet, 33)
    ends = np.full_like(margin, margin[0]), np.full_like(margin, margin[-1])
    rim = np.vstack([np.column_stack(pair) for end in ends for pair in ((margin, end), (end, margin))])
    far = np.column_stack([rim, np.ones(len(rim))]) @ homography(label.dim, corners).T
    places = far[:, :2] / far[:, 2:]
    if camera is not None:
        places = distorted(camera, places)
    low, high = np.floor(places.min(0)) - 2, np.ceil(places.max(0)) + 3
    left, top = np.maximum(low, 0).astype(int)
    right, bottom = np.minimum(high, size).astype(int)
    return left, top, right, bottom


def covered(label: Label, to_label: Callable, xs: np.ndarray, ys: np.ndarray):
    """Ink and card of these pixels: one sample where a pixel lies in one module, the lattice where a module's edge runs through."""
    u, v = to_label(xs, ys)
    ink, card = (part.astype(float) for part in printed(label, u, v))
    mixed = crossed(label, u, v)
    x, y = xs[mixed], ys[mixed]
    inks, cards = np.zeros(x.shape), np.zeros(x.shape)
    for dx, dy in LATTICE:
        i, c = printed(label, *to_label(x + dx, y + dy))
        inks += i
        cards += c
    ink[mixed], card[mixed] = inks / SAMPLES, cards / SAMPLES
    return ink, card


def crossed(label: Label, u: np.ndarray, v: np.ndarray) -> np.ndarray:
    """Which of the pixels with these module coordinates at their centres show more than one level."""
    half_u, half_v = (0.55 * np.abs(np.gradient(part)).sum(axis=0) for part in (u, v))
    ends = [printed(label, u + a * half_u, v + b * half_v) for a in (-1, 1) for b in (-1, 1)]
    inks, cards = (np.sum([end[part] for end in ends], axis=0) for part in (0, 1))
    return (inks % 4 != 0) | (cards % 4 != 0)


def printed(label: Label, u: np.ndarray, v: np.ndarray):
    """Whether a module of 1, and whether the card, lies at these module coordinates."""
    wide = int(np.ceil(label.quiet)) + 1
    modules = np.pad(encoded(label.text, label.version), wide)
    column = np.clip(np.floor(u).astype(int) + wide, 0, modules.shape[1] - 1)
    row = np.clip(np.floor(v).astype(int) + wide, 0, modules.shape[0] - 1)
    inside = (np.minimum(u, v) >= -label.quiet) & (np.maximum(u, v) < label.dim + label.quiet)
    return modules[row, column].astype(bool) & inside, inside


@lru_cache(maxsize=64)
def encoded(text: str, version: int) -> np.ndarray:
    """The QR code of a text in this version, without its margin, 1 dark."""
    wish = cv2.QRCodeEncoder_Params()
    wish.version = version
    try:
        picture = cv2.QRCodeEncoder_create(wish).encode(text)
    except cv2.error as refusal:
        raise ValueError(f"this text does not fit a QR code of version {version}") from refusal
    dim = 17 + 4 * version
    margin = (picture.shape[0] - dim) // 2
    grid = (picture[margin:margin + dim, margin:margin + dim] == 0).astype(np.uint8)
    grid.setflags(write=False)
    return grid
