"""The example programs: label in C and Rust, which examples/test compares, and smooth in C."""
from __future__ import annotations

import subprocess

import pytest


def test_both_examples_print_and_write_what_label_does(root, archive):
    label = root / "crates/label/out/label"
    if not label.is_file():
        pytest.skip(f"{label} is not there: `rt ci`, or `rt run` in crates/label, builds it")
    done = subprocess.run([root / "examples/test", archive, label], capture_output=True, text=True)
    different = [line for line in done.stdout.splitlines() if not line.startswith("same: ")]
    assert done.returncode == 0, "\n".join([*different, done.stderr])
    assert done.stdout.count("same: ") > 250


@pytest.mark.parametrize("window, heights, status, printed, complained", [
    ("3", "10 10 40\n10 11\n", 0, "10\n20\n20\n20\n10\n", ""),
    ("31", "", 0, "", ""),
    ("4", "1 2", 1, "", "21: the window is not an odd number from 3 to 31\n"),
    ("3", "1 65536", 2, "", "usage: smooth WINDOW < HEIGHTS, at most 99999 from 0 to 65535\n"),
    ("3", "1 x", 2, "", "usage: smooth WINDOW < HEIGHTS, at most 99999 from 0 to 65535\n")])
def test_the_example_that_smooths(compiled, root, window, heights, status, printed, complained):
    done = subprocess.run([compiled(root / "examples/c/smooth.c"), window], input=heights, capture_output=True, text=True)
    assert (done.returncode, done.stdout, done.stderr) == (status, printed, complained)
