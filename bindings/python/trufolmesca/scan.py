"""Smoothing of a scan: a rim profile as heights in whole units, in the order of the scan."""
from __future__ import annotations

import numpy as np
from numpy.typing import ArrayLike, NDArray

from .arguments import heights, lent_heights, window_argument
from .library import call
from .refusal import demand


def smooth_to(scan: ArrayLike, window: int, out: NDArray[np.uint16] | None = None) -> NDArray[np.uint16]:
    """The scan smoothed, in a new array or in `out`, whose heights behind the scan's stay.

    Each height becomes the mean, rounded down, of the `window` heights around it, or of those among
    them that the scan has; the window is odd, from 3 to 31. Refused by 21, then by 22 where `out` is
    shorter than the scan; both write nothing.
    """
    read = heights("the scan", scan)
    written = np.zeros(read.size, np.uint16) if out is None else lent_heights("out", out)
    if np.may_share_memory(read, written):
        raise ValueError("out is a part of the scan: smooth_over smooths a scan over itself")
    demand(call("smooth_to", read, window_argument(window), written))
    return written


def smooth_over(scan: NDArray[np.uint16], window: int) -> None:
    """Smooths a scan over itself, as smooth_to does; refused by 21, which leaves it as it was."""
    demand(call("smooth_over", lent_heights("the scan", scan), window_argument(window)))
