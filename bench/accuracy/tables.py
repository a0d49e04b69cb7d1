"""Errors of the methods, and the tables that docs/ACCURACY.md shows of them."""
from dataclasses import dataclass
from typing import Callable, Dict, Iterable, List, Optional

import numpy as np

from methods import Found
from scenes import Case, Scene

WRONG = 0.5  # pixels: an answer with a corner further off than this is wrong


@dataclass(frozen=True)
class Result:
    """What one method came to on one label: the distances of its corners from the true ones, or None without an answer."""
    case: Case
    errors: Optional[np.ndarray]
    marked: bool

    @property
    def wrong(self) -> bool:
        """Whether there is an answer with a corner that is more than half a pixel off."""
        return self.errors is not None and bool(self.errors.max() > WRONG)


Results = Dict[str, List[Result]]


def judged(scene: Scene, found: Found) -> Result:
    """A method's answer, held against the true corners."""
    errors = None if found.corners is None else np.linalg.norm(found.corners - scene.corners, axis=1)[list(found.counted)]
    return Result(scene.case, errors, found.marked)


def numbers(results: Iterable[Result]) -> Dict[str, float]:
    """Of the corners' errors RMS, median, 95 % and the largest; of the labels how many are unanswered, marked and wrong."""
    results = list(results)
    errors = np.concatenate([result.errors for result in results if result.errors is not None] or [np.zeros(0)])
    spread = dict.fromkeys(("rms", "median", "most", "largest"), float("nan"))
    if errors.size:
        spread = dict(rms=float(np.sqrt((errors ** 2).mean())), median=float(np.median(errors)),
                      most=float(np.percentile(errors, 95)), largest=float(errors.max()))
    return dict(spread, labels=len(results), silent=sum(result.errors is None for result in results),
                marked=sum(result.marked for result in results), wrong=sum(result.wrong for result in results),
                unmarked=sum(result.wrong and not result.marked for result in results))


def unmarked(results: Iterable[Result]) -> List[Result]:
    """The answers that a method gave without a mark."""
    return [result for result in results if result.errors is not None and not result.marked]


def table(head: List[str], rows: List[List[str]]) -> str:
    """A table in Markdown, numbers to the right."""
    rule = ["---"] + ["---:"] * (len(head) - 1)
    return "\n".join("| " + " | ".join(row) + " |" for row in [head, rule, *rows])


def number(value: float) -> str:
    """An error in pixels, to three digits behind the point."""
    return "-" if np.isnan(value) else f"{value:.3f}"


def compared(results: Results, tool: str) -> str:
    """The methods side by side; the tool has a second row for the answers that it gave without a warning."""
    rows = []
    named = list(results.items())
    if tool in results:
        named.append((f"{tool}, answers without a warning", unmarked(results[tool])))
    for name, found in named:
        n = numbers(found)
        errors = [number(n[key]) for key in ("rms", "median", "most", "largest")]
        rows.append([name, str(n["labels"]), str(n["silent"]), *errors, str(n["wrong"]), str(n["unmarked"])])
    head = ["Method", "Labels", "No answer", "RMS, px", "Median, px", "95 %, px", "Largest, px", "Wrong", "of these without a warning"]
    return table(head, rows)


def split(results: Results, names: List[str], word: str, key: Callable[[Case], float]) -> str:
    """Median, 95 % and wrong answers of some methods for each value of one property of the labels."""
    head = [word] + ["Labels"] + [f"{name.replace(' from these', '')}: median / 95 % / wrong" for name in names]
    rows = []
    for value in sorted({key(result.case) for result in results[names[0]]}):
        parts = {name: numbers(result for result in results[name] if key(result.case) == value) for name in names}
        cells = [f"{number(n['median'])} / {number(n['most'])} / {n['wrong'] + n['silent']}" for n in parts.values()]
        rows.append([str(value), str(parts[names[0]]["labels"]), *cells])
    return table(head, rows)
