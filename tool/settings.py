"""Measuring settings: a file of --settings, and those of a record, each refused in words where it is not taken."""
from __future__ import annotations

import json
import math
from dataclasses import asdict, dataclass
from pathlib import Path
from typing import Any

from trufolmesca import Settings

from tool import Unanswered, printable, reason

MOST_SHOWN = 60  # letters of what a file has where a setting should be
KINDS = {str: "a text", list: "a list", dict: "an object"}  # true, false and null are said as they stand


@dataclass(frozen=True)
class Range:
    """What a setting may be, both ends with it."""

    low: int
    high: int
    whole: bool = False

    def __str__(self) -> str:
        return f"a {'whole ' if self.whole else ''}number from {self.low} to {self.high}"

    def has(self, value: float) -> bool:
        """Whether a finite number is one of these."""
        return self.low <= value <= self.high and (not self.whole or value == int(value))


# What the library takes; others it refuses by 25.
RANGES = {
    "probe_fraction_first": Range(0, 1),
    "probe_fraction_second": Range(0, 1),
    "edge_margin_modules": Range(1, 10),
    "max_points_per_edge": Range(1, 354, whole=True),
    "min_edge_points": Range(2, 354, whole=True),
    "contrast_floor": Range(1, 255, whole=True),
    "outlier_floor_modules": Range(0, 100),
    "outlier_median_multiplier": Range(0, 100),
    "rounds": Range(1, 4, whole=True),
}


def read_settings(path: Path) -> Settings:
    """The settings of a file: those that it names, and the defaults for the others."""
    try:
        return settings_from(json.loads(path.read_bytes(), object_pairs_hook=_once_each, parse_int=float))
    except OSError as error:
        raise Unanswered(f"the settings file {path} cannot be read: {reason(error)}") from None
    except Unanswered as why:
        raise Unanswered(f"the settings file {path}: {why}") from None
    except json.JSONDecodeError as error:
        raise Unanswered(f"the settings file {path} is not JSON: it goes wrong in line {error.lineno}, column {error.colno}") from None
    except (ValueError, RecursionError):
        raise Unanswered(f"the settings file {path} is not JSON") from None


def _once_each(pairs: list[tuple[str, Any]]) -> dict[str, Any]:
    """An object of a file, in which each name stands once: of two values nobody could say which one is meant."""
    values: dict[str, Any] = {}
    for name, value in pairs:
        if name in values:
            raise Unanswered(f"'{_shown(name)}' stands there twice")
        values[name] = value
    return values


def settings_from(values: object) -> Settings:
    """The settings that are named, each in its range, and the defaults for the others."""
    if not isinstance(values, dict):
        raise Unanswered('it is not an object of names and numbers, such as {"contrast_floor": 6}')
    for name in values:
        if name not in RANGES:
            raise Unanswered(f"'{_shown(name)}' is not a setting; the settings are {', '.join(RANGES)}")
    return Settings(**{name: _taken(name, value) for name, value in values.items()})


def _taken(name: str, value: object) -> int | float:
    """The value of a setting, if it is one."""
    range_ = RANGES[name]
    if isinstance(value, bool) or not isinstance(value, (int, float)):
        raise Unanswered(f"{name} is {KINDS.get(type(value)) or json.dumps(value)}, and must be {range_}")
    if isinstance(value, float) and not math.isfinite(value):
        raise Unanswered(f"{name} is not a finite number, and must be {range_}")
    if not range_.has(value):
        raise Unanswered(f"{name} is {_shown(repr(value).removesuffix('.0'))}, and must be {range_}")
    return int(value) if range_.whole else float(value)


def _shown(text: str) -> str:
    """The front of a text, as a line of a terminal takes it."""
    return printable(text if len(text) <= MOST_SHOWN else text[:MOST_SHOWN] + "..")


def recorded_settings(request: dict[str, Any]) -> Settings | None:
    """The settings of a record's request; None for one without any, from before there were settings: the defaults measured it."""
    if "settings" not in request:
        return None
    values = request["settings"]
    if isinstance(values, dict):
        missing = [name for name in RANGES if name not in values]
        if missing:
            raise Unanswered(f"{missing[0]} is missing")
        values = {name: value for name, value in values.items() if name != "bits"}
    return settings_from(values)


def other_than_defaults(settings: Settings) -> str:
    """What settings have instead of the defaults; nothing where they are the defaults."""
    defaults = asdict(Settings())
    others = [(name, value) for name, value in asdict(settings).items() if value != defaults[name]]
    return ", ".join(f"{name} {value} instead of {defaults[name]}" for name, value in others)
