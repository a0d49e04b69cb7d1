"""How blurred a label is, in modules, also where its edges run into each other."""
from __future__ import annotations

import cv2
import numpy as np
from trufolmesca import Camera

from tool.label import module_levels

FINE = 6      # samples a module of the drawn label
MARGIN = 4    # modules of light card around it
BLURS = np.arange(0.05, 0.61, 0.025)
AROUND = (-0.2, 0.0, 0.2)  # as module_levels samples a module


def module_blur(grey: np.ndarray, corners: np.ndarray, grid: np.ndarray, camera: Camera | None) -> float:
    """The Gaussian, in modules, by which the drawn label has to be blurred to look like the picture under these corners.

    The pixels' own width counts with it, as it does for the refinement; below 0.1 the number is coarse.
    """
    seen = module_levels(grey, corners, len(grid), camera).ravel()
    if seen.std() == 0:
        return float("nan")
    likeness = [abs(np.corrcoef(seen, drawn_levels(grid, blur).ravel())[0, 1]) for blur in BLURS]
    return float(BLURS[int(np.argmax(likeness))])


def expected_error(blur: float) -> float:
    """How far a corner is off at this blur, both in modules.

    A rule of thumb of the band in docs/ACCURACY.md: 0.0045 at a blur of 0.2, 0.011 at 0.25, 0.023 at 0.3.
    """
    return 0.011 * (blur / 0.25) ** 4


def drawn_levels(grid: np.ndarray, blur: float) -> np.ndarray:
    """What module_levels would give for the label, drawn and blurred by so many modules."""
    fine = np.kron(np.pad(grid, MARGIN).astype(np.float32), np.ones((FINE, FINE), np.float32))
    fine = cv2.GaussianBlur(fine, (0, 0), blur * FINE)
    middles = np.arange(len(grid)) + MARGIN + 0.5
    levels = []
    for down in AROUND:
        for along in AROUND:
            x, y = np.meshgrid((middles + along) * FINE - 0.5, (middles + down) * FINE - 0.5)
            levels.append(cv2.remap(fine, x.astype(np.float32), y.astype(np.float32), cv2.INTER_LINEAR))
    return np.mean(levels, axis=0)
