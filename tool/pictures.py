"""The pictures that are written: PNG without metadata, and the overlay that shows what was measured."""
from __future__ import annotations

import math

import cv2
import numpy as np

from tool.record import Record

OVERLAY_PX = 900         # the enlarged label's longer side, about
MARGIN_MODULES = 3
ROUGH_BGR = (255, 120, 0)
REFINED_BGR = (0, 200, 0)
READ_BGR = (0, 150, 255)
WARNING_BGR = (0, 0, 220)
FRACTION_BITS = 4        # OpenCV draws lines at sixteenths of a pixel
LINE_PX = 22             # a line of the overlay's text
FONT = cv2.FONT_HERSHEY_SIMPLEX


def png_of(picture: np.ndarray) -> bytes:
    """A picture as PNG; OpenCV writes no chunk but the picture's own."""
    done, encoded = cv2.imencode(".png", picture)
    if not done:
        raise RuntimeError("OpenCV could not write a PNG")
    return encoded.tobytes()


def overlay_of(record: Record) -> np.ndarray:
    """The label enlarged, what was read in orange, the rough corners in blue, the refined in green, and words below."""
    places = np.array(record.rough + (record.corners or []))
    window = _window(places, MARGIN_MODULES * (record.module_px or 1), record.prepared.shape)
    left, top, right, bottom = window
    scale = OVERLAY_PX / max(right - left, bottom - top)
    scale = max(1, math.floor(scale)) if scale >= 1 else scale
    drawn = cv2.cvtColor(_sized(record.prepared[top:bottom, left:right], scale), cv2.COLOR_GRAY2BGR)
    if record.marks is not None:
        marked = _sized(record.marks.sheet[top:bottom, left:right] * 255, scale) > 0
        drawn[marked] = (0.45 * drawn[marked] + 0.55 * np.array(READ_BGR)).astype(np.uint8)
    _quadrilateral(drawn, record.rough, (left, top), scale, ROUGH_BGR)
    if record.corners is not None:
        _quadrilateral(drawn, record.corners, (left, top), scale, REFINED_BGR)
        _corner_texts(drawn, record.corners, (left, top), scale)
    return np.vstack([drawn, _legend(record, drawn.shape[1])])


def _window(places: np.ndarray, margin: float, shape: tuple[int, int]) -> tuple[int, int, int, int]:
    """The part of the picture around these places: left, top, right, bottom, at least a pixel each way."""
    height, width = shape
    left, top = np.clip(np.floor(places.min(axis=0) - margin), 0, [width - 1, height - 1]).astype(int)
    right, bottom = np.clip(np.ceil(places.max(axis=0) + margin) + 1, [left + 1, top + 1], [width, height]).astype(int)
    return int(left), int(top), int(right), int(bottom)


def _sized(picture: np.ndarray, scale: float) -> np.ndarray:
    """A picture enlarged by whole pixels, or made smaller."""
    way = cv2.INTER_NEAREST if scale >= 1 else cv2.INTER_AREA
    return cv2.resize(picture, None, fx=scale, fy=scale, interpolation=way)


def _drawn_at(places: list, origin: tuple[int, int], scale: float) -> np.ndarray:
    """Where places of the photograph lie on the enlarged picture."""
    return (np.array(places) - origin + 0.5) * scale - 0.5


def _quadrilateral(drawn: np.ndarray, places: list, origin: tuple[int, int], scale: float, colour: tuple) -> None:
    """Draws a closed line through four places."""
    points = np.rint(_drawn_at(places, origin, scale) * (1 << FRACTION_BITS)).astype(np.int32)
    cv2.polylines(drawn, [points], True, colour, 1, cv2.LINE_AA, FRACTION_BITS)


def _corner_texts(drawn: np.ndarray, corners: list, origin: tuple[int, int], scale: float) -> None:
    """Writes each corner's number and place beside it, inside of the picture."""
    height, width = drawn.shape[:2]
    for index, (corner, place) in enumerate(zip(corners, _drawn_at(corners, origin, scale))):
        text = f"{index} ({corner[0]:.2f}, {corner[1]:.2f})"
        (wide, high), _ = cv2.getTextSize(text, FONT, 0.5, 1)
        x = int(np.clip(place[0] + 6, 0, max(0, width - wide - 2)))
        y = int(np.clip(place[1] - 6, high + 2, height - 4))
        cv2.putText(drawn, text, (x, y), FONT, 0.5, (255, 255, 255), 3, cv2.LINE_AA)
        cv2.putText(drawn, text, (x, y), FONT, 0.5, (0, 0, 0), 1, cv2.LINE_AA)


def _legend(record: Record, width: int) -> np.ndarray:
    """The lines below the enlarged label: what the colours mean, and each warning."""
    lines = [("rough corners", ROUGH_BGR), ("refined corners", REFINED_BGR), ("pixels read", READ_BGR)]
    lines += [(text, WARNING_BGR) for warning in _said(record) for text in _wrapped(warning, width)]
    strip = np.full((LINE_PX * len(lines) + 8, width, 3), 255, np.uint8)
    for row, (text, colour) in enumerate(lines):
        cv2.putText(strip, text, (6, LINE_PX * row + 18), FONT, 0.5, colour, 1, cv2.LINE_AA)
    return strip


def _said(record: Record) -> list[str]:
    """What the overlay has to say in words: a refusal, and the warnings."""
    refusal = [] if record.number == 0 else [f"Refused by {record.number}: {record.word}."]
    return [*refusal, *record.warnings]


def _wrapped(sentence: str, width: int) -> list[str]:
    """A sentence in lines that fit, in letters that OpenCV can draw."""
    lines = [""]
    for word in sentence.encode("ascii", "replace").decode().split():
        longer = f"{lines[-1]} {word}".strip()
        if lines[-1] and cv2.getTextSize(longer, FONT, 0.5, 1)[0][0] > width - 12:
            lines.append(word)
        else:
            lines[-1] = longer
    return lines
