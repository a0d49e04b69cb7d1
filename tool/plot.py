"""The plot of a scan before and after it is smoothed."""
from __future__ import annotations

import cv2
import numpy as np

from tool.pictures import FONT, FRACTION_BITS

WIDTH, HEIGHT = 1200, 600
LEFT, RIGHT, TOP, BOTTOM = 80, 20, 40, 40    # around the frame, for the words
BEFORE_BGR = (190, 150, 110)
AFTER_BGR = (0, 0, 200)
INK_BGR = (60, 60, 60)


def plot_of(places: list[float], before: list[int], after: list[int], window: int) -> np.ndarray:
    """The heights before in light blue, the smoothed ones over them in red, ranges in numbers."""
    drawn = np.full((HEIGHT, WIDTH, 3), 255, np.uint8)
    across, up = _range(places), _range(before)
    cv2.rectangle(drawn, (LEFT, TOP), (WIDTH - RIGHT, HEIGHT - BOTTOM), INK_BGR, 1)
    for heights, colour in ((before, BEFORE_BGR), (after, AFTER_BGR)):
        if heights:
            _polyline(drawn, [_point(x, y, across, up) for x, y in zip(places, heights)], colour)
    _words(drawn, f"before ({len(before)} heights)", (LEFT, TOP - 14), BEFORE_BGR)
    _words(drawn, f"after (window {window})", (LEFT + 300, TOP - 14), AFTER_BGR)
    _words(drawn, f"{up[1]:g}", (8, TOP + 12), INK_BGR)
    _words(drawn, f"{up[0]:g}", (8, HEIGHT - BOTTOM), INK_BGR)
    _words(drawn, f"{across[0]:g}", (LEFT, HEIGHT - 14), INK_BGR)
    _words(drawn, f"{across[1]:g}", (WIDTH - RIGHT - 80, HEIGHT - 14), INK_BGR)
    return drawn


def _range(values: list) -> tuple[float, float]:
    """The least and the largest value, and one more where they are the same."""
    low, high = (min(values), max(values)) if values else (0, 1)
    return low, high if high > low else low + 1


def _point(x: float, y: float, across: tuple[float, float], up: tuple[float, float]) -> list[int]:
    """Where a record lies in the frame, in OpenCV's fractions of a pixel."""
    right = LEFT + (x - across[0]) / (across[1] - across[0]) * (WIDTH - LEFT - RIGHT)
    down = HEIGHT - BOTTOM - (y - up[0]) / (up[1] - up[0]) * (HEIGHT - TOP - BOTTOM)
    return [round(right * (1 << FRACTION_BITS)), round(down * (1 << FRACTION_BITS))]


def _polyline(drawn: np.ndarray, points: list[list[int]], colour: tuple) -> None:
    """Draws a line through points; its last one twice, so that one alone is a dot."""
    cv2.polylines(drawn, [np.array([*points, points[-1]], np.int32)], False, colour, 1, cv2.LINE_AA, FRACTION_BITS)


def _words(drawn: np.ndarray, words: str, at: tuple[int, int], colour: tuple) -> None:
    """Writes words from a place on."""
    cv2.putText(drawn, words, at, FONT, 0.5, colour, 1, cv2.LINE_AA)
