"""The library's calls as measuring and verifying make them, and what follows from an answer."""
from __future__ import annotations

from dataclasses import dataclass

import numpy as np
import trufolmesca
from trufolmesca import Answer, Camera, Edge, Marks, Number, Refused, Settings, word_of

# What a record says of a refused run: nothing was found of any corner or edge.
NOTHING = Answer(np.zeros((4, 2)), (False,) * 4, (Edge(0, 0, 0, False),) * 4)


@dataclass(frozen=True)
class Run:
    """What a marking refinement came to, answered or refused: a record has both, and so both can be verified."""

    number: int
    answer: Answer
    marks: Marks | None

    @property
    def word(self) -> str:
        """The number in words."""
        return word_of(self.number)


def refine(picture: np.ndarray, grid: np.ndarray, corners: np.ndarray, inverted: bool, camera: Camera | None,
           settings: Settings | None) -> Answer:
    """The refinement, through the camera if there is one, and by the defaults where there are no settings."""
    if camera is None:
        return trufolmesca.refine_corners(picture, grid, corners, inverted=inverted, settings=settings)
    return trufolmesca.refine_corners_mapped(picture, grid, corners, camera, inverted=inverted, settings=settings)


def run_marking(picture: np.ndarray, grid: np.ndarray, corners: np.ndarray, inverted: bool, camera: Camera | None,
                settings: Settings | None) -> Run:
    """The same refinement, with its sheet and copy."""
    try:
        if camera is None:
            answer = trufolmesca.refine_corners_marking(picture, grid, corners, inverted=inverted, settings=settings)
        else:
            answer = trufolmesca.refine_corners_mapped_marking(picture, grid, corners, camera, inverted=inverted, settings=settings)
    except Refused as refusal:
        return Run(refusal.number, NOTHING, refusal.marks)
    return Run(Number.ANSWER, answer, answer.marks)


def in_photograph(camera: Camera | None, corners: np.ndarray) -> np.ndarray:
    """Where an answer's corners lie in the photograph; Refused where one has no place there."""
    if camera is None:
        return corners
    return np.array([trufolmesca.rectified_to_source(camera, x, y) for x, y in corners.tolist()])


def px_per_mm(corners: np.ndarray, side_mm: float) -> np.ndarray:
    """Pixels for each millimetre along the top, right, bottom and left side of the label."""
    return np.linalg.norm(np.roll(corners, -1, axis=0) - corners, axis=1) / side_mm
