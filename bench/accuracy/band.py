"""The band of the working range: the error over the size of a module and its blur, as a plot."""
from pathlib import Path
from typing import Dict, List, Tuple

import matplotlib
import numpy as np

matplotlib.use("Agg")
from matplotlib import pyplot  # noqa: E402
from matplotlib.colors import LogNorm  # noqa: E402

from methods import plain, this_tool  # noqa: E402
from scenes import Case, scene  # noqa: E402
from tables import Result, judged, numbers  # noqa: E402

MODULES = (3, 4, 6, 8, 12, 16, 24, 32)
BLURS = (0.02, 0.04, 0.07, 0.1, 0.15, 0.2, 0.3, 0.4, 0.5)
PANELS = {"one call of the refinement on the picture as it is": plain, "this tool, with --prepare auto": this_tool}
Cell = Tuple[int, float]


def measured(repeats: int, first: int = 0, modules=MODULES, blurs=BLURS, progress=iter) -> Dict[str, Dict[Cell, List[Result]]]:
    """The results of both panels for each size of a module and each blur in modules."""
    cells = {name: {} for name in PANELS}
    for module, blur in progress([(module, blur) for module in modules for blur in blurs]):
        scenes = [scene(Case(21, 21 * module, blur * module, False, seed, tilt=5.0)) for seed in range(first, first + repeats)]
        for name, method in PANELS.items():
            cells[name][module, blur] = [judged(one, method(one, one.given)) for one in scenes]
    return cells


def drawn(cells: Dict[str, Dict[Cell, List[Result]]], path: Path) -> None:
    """Writes the plot: one panel a method, the RMS in pixels in each cell, a frame where most answers bear a warning or are missing."""
    figure, panels = pyplot.subplots(1, 2, figsize=(13, 5.6), sharey=True, constrained_layout=True)
    for panel, (name, found) in zip(panels, cells.items()):
        image = one_panel(panel, found)
        panel.set_title(name, fontsize=12)
        panel.set_xlabel("side of a module, pixels")
    panels[0].set_ylabel("blur (Gaussian's standard deviation), modules")
    bar = figure.colorbar(image, ax=panels, shrink=0.9, pad=0.015)
    bar.set_label("RMS error of the corners, pixels")
    bar.set_ticks([0.01, 0.03, 0.1, 0.3, 1, 3], labels=["0.01", "0.03", "0.1", "0.3", "1", "3"])
    figure.suptitle("Where the corners are right: 21 by 21 modules, noise 2, rough corners up to 0.25 module off. "
                    "Framed: most answers bear a warning or are refused", fontsize=11)
    figure.savefig(path, dpi=110, metadata={"Software": None})
    pyplot.close(figure)


def shown(error: float) -> str:
    """An error in pixels, as short as a cell is wide."""
    return "none" if np.isnan(error) else f"{error:.2g}" if error < 0.995 else f"{error:.1f}"


def one_panel(panel, found: Dict[Cell, List[Result]]):
    """Draws one panel, and returns its picture for the scale beside it."""
    modules, blurs = sorted({cell[0] for cell in found}), sorted({cell[1] for cell in found})
    errors = np.array([[numbers(found[module, blur])["rms"] for module in modules] for blur in blurs])
    image = panel.imshow(np.ma.masked_invalid(errors), origin="lower", aspect="auto", cmap="RdYlGn_r", norm=LogNorm(0.01, 3))
    panel.set_facecolor("#8a8a8a")
    for row, blur in enumerate(blurs):
        for column, module in enumerate(modules):
            error, results = errors[row, column], found[module, blur]
            panel.text(column, row, shown(error), ha="center", va="center", fontsize=9)
            if 2 * sum(result.marked or result.errors is None for result in results) > len(results):
                panel.add_patch(pyplot.Rectangle((column - 0.46, row - 0.44), 0.92, 0.88, fill=False, linewidth=2, edgecolor="#1d2a6b"))
    panel.set_xticks(range(len(modules)), modules)
    panel.set_yticks(range(len(blurs)), blurs)
    return image
