"""The label in a photograph: the decoder's corners, the modules as the picture shows them, and what they must be."""
from __future__ import annotations

from dataclasses import dataclass, replace
from functools import lru_cache

import cv2
import numpy as np
import zxingcpp
from trufolmesca import Camera

from tool.camera import to_source

DIMENSIONS = range(21, 178, 4)
LEAST_MODULE_PX = 1.5    # below this no module can be told from its neighbour
DECODER_OFFSET = 0.5     # the decoder counts from the corner of the first pixel, the library from its centre
DECODER_SCALES = (1, 2, 0.5)  # of 244 rendered labels it found 243 as they were, and the last one enlarged
MOST_ENLARGED_PX = 1 << 23
STRIP_ROWS = 256
# Of 60 rendered labels the finder and timing modules agreed to 0.80 at most in another dimension, to 0.87 in another order of corners,
# and wholly in the right ones, also with corners a quarter of a module off.
PATTERN_AGREEMENT = 0.9
MOST_DISAGREEING = 0.05  # of all modules; under mirrored or turned corners more than a fifth of them differed
MARGIN_DEPTHS = (0.7, 1.0, 1.3, 1.7)  # modules outside of the label's edge
MARGIN_RUN = 5           # modules along the edge of which the mean is taken, against noise
MOST_MARGIN_OFF = 0.12   # of the contrast between the inks; from 0.16 on corners moved by more than 0.1 pixel
MOST_DISTURBED = 0.1     # of a side's margin
# Blur darkens the light modules, so that a bare margin looks too light beside them: of 120 labels with a whole margin 20 did,
# all with edges blurred by 0.19 module or more, and none looked too dark.
CLEAR_LIGHT_BLUR = 0.17
FAR_PX = 1 << 20         # beyond any picture
CORRELATION_STEPS = 60
FITTED_REACH = 1.0       # modules that the fit may move a decoder's corner: more, and it has found something else

ORDINALS = ("first", "second", "third", "fourth")


@dataclass(frozen=True)
class Found:
    """A label as the decoder found it; corners are in the photograph's pixels."""

    text: str
    corners: np.ndarray
    inverted: bool


@dataclass(frozen=True)
class Reading:
    """The modules of a label as the picture shows them, 1 dark, and how far they agree with the fixed patterns."""

    grid: np.ndarray
    agreement: float


def decode(grey: np.ndarray, inverted: bool | None = None, camera: Camera | None = None) -> list[Found]:
    """The QR labels of a picture, from the top of the picture down; where there is none and a camera, those of the picture straightened,
    since the decoder looks for straight edges."""
    found = _decode(grey, inverted)
    if found or camera is None:
        return found
    return [replace(label, corners=to_source(camera, label.corners)) for label in _decode(straightened(grey, camera), inverted)]


def straightened(grey: np.ndarray, camera: Camera) -> np.ndarray:
    """The camera's rectified picture, as large as the photograph and white where that has no place; by strips, which spares memory."""
    strips = []
    for top in range(0, len(grey), STRIP_ROWS):
        rows, columns = np.mgrid[top:min(top + STRIP_ROWS, len(grey)), 0:grey.shape[1]]
        places = to_source(camera, np.stack([columns, rows], axis=-1).astype(float))
        places = np.clip(np.nan_to_num(places, nan=FAR_PX), -FAR_PX, FAR_PX).astype(np.float32)
        strips.append(cv2.remap(grey, places[..., 0], places[..., 1], cv2.INTER_LINEAR, borderMode=cv2.BORDER_CONSTANT, borderValue=255))
    return np.concatenate(strips)


def _decode(grey: np.ndarray, inverted: bool | None) -> list[Found]:
    """The labels of a picture as it is, dark on light and light on dark."""
    for scale in DECODER_SCALES:
        if scale > 1 and grey.size > MOST_ENLARGED_PX:
            continue
        found = _decode_scaled(grey, scale, (False, True) if inverted is None else (inverted,))
        if found:
            return sorted(found, key=lambda label: tuple(label.corners.mean(axis=0)[::-1]))
    return []


def _decode_scaled(grey: np.ndarray, scale: float, polarities: tuple[bool, ...]) -> list[Found]:
    """The labels that the decoder finds on the picture brought to this scale."""
    way = cv2.INTER_CUBIC if scale > 1 else cv2.INTER_AREA
    sized = grey if scale == 1 else cv2.resize(grey, None, fx=scale, fy=scale, interpolation=way)
    found = []
    for inverted in polarities:
        picture = cv2.bitwise_not(sized) if inverted else sized
        for result in zxingcpp.read_barcodes(picture, formats=zxingcpp.BarcodeFormat.QRCode):
            found.append(Found(_encodable(result.text), _corners_of(result.position, scale), inverted))
    return found


def _encodable(text: str) -> str:
    """A label's text as it can be written: a label can hold any bytes."""
    return text.encode("utf-8", "replace").decode()


def _corners_of(position: zxingcpp.Position, scale: float) -> np.ndarray:
    """The decoder's corners, counted from the first pixel's centre."""
    corners = (position.top_left, position.top_right, position.bottom_right, position.bottom_left)
    return np.array([[corner.x, corner.y] for corner in corners], float) / scale - DECODER_OFFSET


def text_of(grid: np.ndarray) -> str | None:
    """The text of a label's modules, if the decoder reads them."""
    drawn = np.kron(np.pad(1 - grid, 4, constant_values=1), np.ones((4, 4))) * 255
    results = zxingcpp.read_barcodes(drawn.astype(np.uint8), formats=zxingcpp.BarcodeFormat.QRCode)
    return _encodable(results[0].text) if results else None


def module_side(corners: np.ndarray, dim: int) -> float:
    """The side of a module along the shortest edge of a label."""
    edges = np.linalg.norm(corners - np.roll(corners, 1, axis=0), axis=1)
    return float(edges.min()) / dim


def module_map(corners: np.ndarray, dim: int) -> np.ndarray:
    """The map of module coordinates, 0 to dim, to four corners."""
    square = np.float32([[0, 0], [dim, 0], [dim, dim], [0, dim]])
    # Taken about the middle of the label, since OpenCV keeps these numbers as floats of 32 bits.
    middle = corners.mean(axis=0)
    about = cv2.getPerspectiveTransform(square, np.float32(corners - middle))
    return np.array([[1, 0, middle[0]], [0, 1, middle[1]], [0, 0, 1]]) @ about


def mapped(map_: np.ndarray, points: np.ndarray) -> np.ndarray:
    """Where a map sends points."""
    ends = points @ map_[:, :2].T + map_[:, 2]
    with np.errstate(divide="ignore", invalid="ignore"):  # corners that are no quadrilateral have no map
        return ends[..., :2] / ends[..., 2:]


def sample(grey: np.ndarray, map_: np.ndarray, camera: Camera | None, points: np.ndarray) -> np.ndarray:
    """The picture at places in module coordinates, between its pixels; beyond the picture its nearest pixel."""
    places = to_source(camera, mapped(map_, points))
    places = np.clip(np.nan_to_num(places, nan=0.0), -FAR_PX, FAR_PX).astype(np.float32)
    return cv2.remap(grey, places[..., 0], places[..., 1], cv2.INTER_LINEAR, borderMode=cv2.BORDER_REPLICATE)


def module_levels(grey: np.ndarray, corners: np.ndarray, dim: int, camera: Camera | None) -> np.ndarray:
    """The mean of nine samples around the middle of each module."""
    rows, columns = np.mgrid[0:dim, 0:dim]
    middles = np.stack([columns, rows], axis=-1) + 0.5
    map_ = module_map(corners, dim)
    around = [middles + [x, y] for x in (-0.2, 0, 0.2) for y in (-0.2, 0, 0.2)]
    return np.mean([sample(grey, map_, camera, points).astype(np.float32) for points in around], axis=0)


def read_grid(grey: np.ndarray, corners: np.ndarray, camera: Camera | None, inverted: bool) -> Reading:
    """The modules under four corners, in the dimension whose finder and timing patterns agree best."""
    sides = np.linalg.norm(corners - np.roll(corners, 1, axis=0), axis=1)
    best = Reading(np.zeros((21, 21), np.uint8), 0.0)
    for dim in DIMENSIONS:
        if sides.max() / dim < LEAST_MODULE_PX:
            break
        reading = read_grid_of(grey, corners, dim, camera, inverted)
        if reading.agreement > best.agreement:
            best = reading
    return best


def read_grid_of(grey: np.ndarray, corners: np.ndarray, dim: int, camera: Camera | None, inverted: bool) -> Reading:
    """The modules of a label of this dimension, by one threshold or by one that follows the light, whichever agrees better."""
    levels = module_levels(grey, corners, dim, camera)
    levels = 255 - levels if inverted else levels
    following = cv2.GaussianBlur(levels, (0, 0), 5.0, borderType=cv2.BORDER_REFLECT)
    readings = []
    for threshold in (_between_inks(levels), following):
        grid = (levels < threshold).astype(np.uint8)
        readings.append(Reading(grid, pattern_agreement(grid)))
    return max(readings, key=lambda reading: reading.agreement)


def _between_inks(levels: np.ndarray) -> float:
    """The middle between the two inks: Otsu's threshold alone lies at the edge of one of them."""
    split, _ = cv2.threshold(levels.astype(np.uint8), 0, 255, cv2.THRESH_OTSU)
    below, above = levels[levels < split + 1], levels[levels >= split + 1]
    return float(below.mean() + above.mean()) / 2 if below.size and above.size else float(split)


@lru_cache(maxsize=None)
def fixed_patterns(dim: int) -> tuple[np.ndarray, np.ndarray]:
    """Where every QR label of this dimension has its finder and timing patterns, and what they are."""
    known, dark = np.zeros((dim, dim), bool), np.zeros((dim, dim), np.uint8)
    finder = np.zeros((8, 8), np.uint8)
    finder[:7, :7] = 1
    finder[1:6, 1:6] = 0
    finder[2:5, 2:5] = 1
    timing = np.arange(8, dim - 8)
    known[6, timing] = known[timing, 6] = True
    dark[6, timing] = dark[timing, 6] = 1 - timing % 2
    known[:8, :8] = known[:8, -8:] = known[-8:, :8] = True
    dark[:8, :8], dark[:8, -8:], dark[-8:, :8] = finder, finder[:, ::-1], finder[::-1]
    return known, dark


def pattern_agreement(grid: np.ndarray) -> float:
    """The part of the finder and timing modules that are as they must be; finders and timing count alike."""
    known, dark = fixed_patterns(len(grid))
    same = (grid == dark)
    timing = np.concatenate([same[6, 8:-8], same[8:-8, 6]]).mean()
    finders = [same[:8, :8].mean(), same[:8, -8:].mean(), same[-8:, :8].mean()]
    return float(min(np.mean([timing, *finders]), same[known].mean()))


def fitted(grey: np.ndarray, corners: np.ndarray, grid: np.ndarray, camera: Camera | None, inverted: bool) -> np.ndarray:
    """Corners moved so that the drawn modules lie best on the picture, or as they were where that fails.

    The decoder rounds its corners to pixels and takes the last from the alignment pattern or from
    the other three, which can be a module off on a tilted label; the refinement wants a quarter.
    """
    dim, margin = len(grid), 2
    fine = 6 if dim <= 45 else 4
    side = (dim + 2 * margin) * fine
    rows, columns = np.mgrid[0:side, 0:side]
    points = (np.stack([columns, rows], axis=-1) + 0.5) / fine - margin
    seen = sample(grey, module_map(corners, dim), camera, points)
    drawn = np.kron(np.pad(1 - grid, margin, constant_values=1), np.ones((fine, fine))) * 200
    seen, drawn = (cv2.bitwise_not(seen) if inverted else seen), drawn.astype(np.uint8)
    stop = (cv2.TERM_CRITERIA_COUNT | cv2.TERM_CRITERIA_EPS, CORRELATION_STEPS, 1e-5)
    try:
        _, warp = cv2.findTransformECC(drawn, seen, np.eye(3, dtype=np.float32), cv2.MOTION_HOMOGRAPHY, stop, None, 5)
    except cv2.error:
        return corners
    square = np.array([[0, 0], [dim, 0], [dim, dim], [0, dim]], float)
    moved = (mapped(warp.astype(float), (square + margin) * fine - 0.5) + 0.5) / fine - margin
    if np.abs(moved - square).max() > FITTED_REACH:
        return corners
    return mapped(module_map(corners, dim), moved)


def edge_blur(grey: np.ndarray, corners: np.ndarray, grid: np.ndarray, camera: Camera | None) -> float:
    """The blur of the label's edges as the standard deviation of a Gaussian, in modules: the median over its edges.

    Along a profile p from 0 to 1 across an edge, the integral of p (1 - p) is that deviation over
    the root of pi, wherever on the profile the edge lies. The samples are taken between pixels, as
    the refinement's are, so a pixel's own width is in the number.
    """
    steps = np.linspace(-0.5, 0.5, 41)
    map_ = module_map(corners, len(grid))
    blurs = []
    for axis in (0, 1):
        row, column = np.nonzero(np.diff(grid.astype(int), axis=1 - axis))
        edges = np.stack([column + (0.5 if axis else 1.0), row + (1.0 if axis else 0.5)], axis=-1)
        direction = np.array([axis == 0, axis == 1], float)
        profiles = sample(grey, map_, camera, edges[:, None, :] + steps[None, :, None] * direction).astype(float)
        first, last = profiles[:, :4].mean(axis=1), profiles[:, -4:].mean(axis=1)
        clear = np.abs(last - first) > 20
        levels = (profiles[clear] - first[clear, None]) / (last - first)[clear, None]
        blurs.append((levels * (1 - levels)).mean(axis=1) * np.sqrt(np.pi))
    together = np.concatenate(blurs)
    return float(np.median(together)) if together.size else float("nan")


def margin_disturbed(grey: np.ndarray, corners: np.ndarray, grid: np.ndarray, camera: Camera | None) -> float:
    """The part of the margin, on its worst side, that is not as light as the light modules near it.

    The refinement reads up to two modules outside of the label, and takes what it sees there for bare card.
    """
    dim = len(grid)
    lighter_counts = edge_blur(grey, corners, grid, camera) < CLEAR_LIGHT_BLUR
    levels = module_levels(grey, corners, dim, camera)
    light, dark = _local_level(levels, grid == 0, 1.0), _local_level(levels, grid == 1, 0.0)
    along, ends = np.arange(dim) + 0.5, np.full(dim, 0.0)
    sides = ((along, ends, 0, -1, light[0], dark[0]), (ends + dim, along, 1, 0, light[:, -1], dark[:, -1]),
             (along, ends + dim, 0, 1, light[-1], dark[-1]), (ends, along, -1, 0, light[:, 0], dark[:, 0]))
    map_, worst = module_map(corners, dim), 0.0
    for x, y, out_x, out_y, bright, ink in sides:
        points = np.stack([np.stack([x + depth * out_x, y + depth * out_y], axis=-1) for depth in MARGIN_DEPTHS])
        strange = cv2.blur(sample(grey, map_, camera, points).astype(np.float32) - bright, (MARGIN_RUN, 1))
        towards_ink = strange * np.sign(ink - bright)
        off = (np.abs(towards_ink) if lighter_counts else towards_ink) > MOST_MARGIN_OFF * np.abs(bright - ink)
        worst = max(worst, float(off.mean()))
    return worst


def _local_level(levels: np.ndarray, chosen: np.ndarray, outside: float) -> np.ndarray:
    """The level of the chosen modules around each module, which follows the light.

    Those with neighbours of their kind count most: blur has mixed the others with the other ink.
    """
    alike = cv2.blur(np.pad(chosen.astype(np.float32), 1, constant_values=outside), (3, 3))[1:-1, 1:-1]
    weights = (chosen * alike ** 6).astype(np.float32)
    return cv2.GaussianBlur(levels.astype(np.float32) * weights, (0, 0), 2.5) / (cv2.GaussianBlur(weights, (0, 0), 2.5) + 1e-9)


def runs_backwards(corners: np.ndarray) -> bool:
    """Whether four corners go round against the clock, as those of a mirrored label do."""
    x, y = corners.T
    return float(np.sum(x * np.roll(y, -1) - np.roll(x, -1) * y)) < 0


def disagreement(grid: np.ndarray, shown: np.ndarray) -> float:
    """The part of the modules in which the grid differs from the picture."""
    return float((grid != shown).mean())


def better_order(grid: np.ndarray, shown: np.ndarray) -> str | None:
    """The order of the given corners in which the picture shows the grid, if there is one."""
    for first in range(4):
        for step, seen in ((1, np.rot90(shown, first)), (-1, np.rot90(shown, first).T)):
            if disagreement(grid, seen) <= MOST_DISAGREEING:
                return ", ".join(ORDINALS[(first + step * index) % 4] for index in range(4))
    return None
