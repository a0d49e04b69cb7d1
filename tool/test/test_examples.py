"""The examples: the photograph's corners are those with which it was drawn, its panels can be drawn, and so can the scan and its plot."""
import importlib.machinery
import importlib.util
import subprocess
from pathlib import Path

import cv2
import numpy as np

from tool.measure import measure

ROOT = Path(__file__).resolve().parents[2]


def script(name):
    """A script of examples/, as a module."""
    loader = importlib.machinery.SourceFileLoader(name, str(ROOT / "examples" / name))
    module = importlib.util.module_from_spec(importlib.util.spec_from_loader(name, loader))
    loader.exec_module(module)
    return module


def test_the_find_is_measured_within_two_hundredths_of_a_pixel():
    drawn = script("find")
    record, = measure(ROOT / "examples" / "find.jpg")
    assert record.text == drawn.LABEL.text and record.repeatable and not record.warnings
    assert np.array_equal([[int(module) for module in row] for row in record.request["grid"]], drawn.LABEL.grid)
    assert np.linalg.norm(np.array(record.corners) - drawn.CORNERS, axis=1).max() < 0.02
    assert record.prepare["sigma_px"] == 0


def test_the_panels_are_drawn_from_what_the_tool_writes(tmp_path):
    picture = tmp_path / "find.png"
    subprocess.run([ROOT / "examples" / "panels", picture], check=True, stdout=subprocess.DEVNULL)
    drawn, kept = cv2.imread(str(picture)), cv2.imread(str(ROOT / "docs" / "find.png"))
    assert drawn.shape == kept.shape
    assert np.abs(drawn.astype(int) - kept).mean() < 3


def test_the_scan_is_the_one_that_is_drawn_and_smooths_to_its_plot(archive):
    drawn = script("scan").table()
    assert drawn == (ROOT / "examples" / "rim.csv").read_text()
    assert archive.run("smooth", archive.add("rim.csv", drawn.encode()), "--window", 7) == 0
    plot, kept = cv2.imread(str(archive.home / "rim-smoothed.png")), cv2.imread(str(ROOT / "docs" / "rim.png"))
    assert plot.shape == kept.shape
    assert np.abs(plot.astype(int) - kept).mean() < 1
