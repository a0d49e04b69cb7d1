"""The rendered labels of the accuracy bench: which they are, and a label as the methods see it."""
from dataclasses import dataclass
from itertools import product
from typing import Iterator, Optional

import numpy as np

from tool.render import Camera, Label, quad, render

DIMS = (21, 25, 33, 45)
SIDES = (60, 100, 160, 250, 400, 600)
BLURS = (0.5, 0.8, 1.3)
LEAST_MODULE = 2.5  # pixels; below it a decoder reads no label
MOST_TILT = 30.0  # degrees out of the picture's plane
NOISES = (1.0, 2.0, 5.0)  # standard deviations in grey levels
MOVED = 0.25  # modules by which corners given by hand are off, at most, in x and in y


@dataclass(frozen=True)
class Case:
    """One label to be rendered: side and blur in pixels, tilt in degrees, noise in grey levels; the seed draws all else."""
    dim: int
    side: float
    blur: float
    lens: bool
    seed: int
    tilt: float = 15.0
    noise: float = 2.0

    @property
    def module(self) -> float:
        """The side of a module in pixels."""
        return self.side / self.dim


@dataclass(frozen=True)
class Scene:
    """A rendered label, its true corners, and corners as a person would give them."""
    case: Case
    picture: np.ndarray
    corners: np.ndarray
    grid: np.ndarray
    camera: Optional[Camera]
    given: np.ndarray


def cases(repeats: int = 2, first: int = 0) -> Iterator[Case]:
    """All dims, sides, blurs, with and without a lens, each a few times with other angles, tilts, noises and places.

    Seeds count from the first: another first gives other labels of the same kinds.
    """
    for number, (dim, side, blur, lens, _) in enumerate(product(DIMS, SIDES, BLURS, (False, True), range(repeats)), first):
        if side / dim >= LEAST_MODULE:
            tilt = np.random.default_rng(number).uniform(0, MOST_TILT)
            yield Case(dim, side, blur, lens, number, round(float(tilt), 1), NOISES[number % len(NOISES)])


def scene(case: Case) -> Scene:
    """The case, rendered."""
    chance = np.random.default_rng([case.seed, case.dim])
    size = (int(2.1 * case.side) + 40, int(2.0 * case.side) + 40)
    centre = np.array(size) / 2 + chance.uniform(-0.5, 0.5, 2) + chance.uniform(-0.04, 0.04, 2) * size
    corners = quad(centre, case.side, chance.uniform(-25, 25), case.tilt, chance.uniform(0, 360))
    camera = Camera.of_size(size) if case.lens else None
    label = Label.of_dim(case.dim, text=f"FIND {case.seed:04d}")
    picture, known, grid = render(label, corners, size, case.blur, case.noise, camera, seed=case.seed)
    return Scene(case, picture, known, grid, camera, known + chance.uniform(-1, 1, (4, 2)) * MOVED * case.module)
