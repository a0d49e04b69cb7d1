"""Measuring settings: the nine numbers that a refinement goes by."""
from __future__ import annotations

import math
from dataclasses import dataclass, fields

import numpy as np
from numpy.typing import NDArray

from .arguments import instance, number


@dataclass(frozen=True)
class Settings:
    """The numbers that a refinement goes by; `Settings()` has the defaults.

    probe_fraction_first,      0 to 1: where in each dark module along an edge its two probes stand
    probe_fraction_second
    edge_margin_modules        1 to 10: how many modules at each end of an edge are left out
    max_points_per_edge        1 to 354, whole: how many probes an edge has at most
    min_edge_points            2 to 354, whole: how many points an edge's line needs
    contrast_floor             1 to 255, whole: how many grey levels an edge must rise by
    outlier_floor_modules,     0 to 100: a point is dropped that is farther from its edge's line than
    outlier_median_multiplier  so many modules and than so many times the median distance
    rounds                     1 to 4, whole: how many rounds are made, each from the corners of the one before

    A call refuses other numbers by 25, behind 6 and before 7.
    """

    probe_fraction_first: float = 0.35
    probe_fraction_second: float = 0.7
    edge_margin_modules: float = 1.5
    max_points_per_edge: int = 64
    min_edge_points: int = 6
    contrast_floor: int = 12
    outlier_floor_modules: float = 0.15
    outlier_median_multiplier: float = 2.0
    rounds: int = 2


def settings_argument(settings: Settings) -> NDArray[np.float64]:
    """Settings as the list of their nine numbers; one that is out of its range goes as it is, for the library to refuse."""
    instance("settings", settings, Settings)
    return np.array([_setting(field.name, getattr(settings, field.name)) for field in fields(settings)])


def _setting(name: str, value: float) -> float:
    """One setting as a double; a whole number beyond all doubles is infinite, which is out of every range too."""
    if isinstance(value, (bool, np.bool_)):
        raise TypeError(f"{name} is a number, not {value!r}")
    try:
        return float(value) if isinstance(value, int) else number(name, value)
    except OverflowError:
        return math.inf
