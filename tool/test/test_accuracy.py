"""A handful of the accuracy bench's labels, with bounds: an answer without a warning is right."""
import sys
from pathlib import Path

import numpy as np
import pytest

sys.path.insert(0, str(Path(__file__).resolve().parents[2] / "bench" / "accuracy"))
import tool  # noqa: E402,F401  (puts the Python binding on the path)
from methods import corner_sub_pix, decoder, library_camera, plain, rough, this_tool  # noqa: E402
from scenes import Case, cases, scene  # noqa: E402
from tables import Result, compared, judged, numbers, unmarked  # noqa: E402
from tool.blur import module_blur  # noqa: E402
from tool.render import undistorted  # noqa: E402


def errors(method, made, *arguments):
    """The distances of a method's corners from the true ones."""
    result = judged(made, method(made, *arguments))
    assert result.errors is not None
    return result.errors


@pytest.mark.parametrize("case", [
    Case(21, 100, 0.8, False, 11), Case(25, 160, 0.5, True, 12), Case(33, 250, 1.3, False, 13), Case(45, 400, 0.8, True, 14)],
    ids=lambda case: f"{case.dim}-{case.side}-{case.blur}-{'lens' if case.lens else 'flat'}")
def test_the_tool_is_right_within_a_tenth_of_a_pixel(case):
    made = scene(case)
    assert errors(this_tool, made).max() < 0.1
    assert errors(this_tool, made, made.given).max() < 0.1
    assert errors(this_tool, made).mean() < errors(corner_sub_pix, made, rough(made).corners).mean() / 3


def test_a_label_too_sharp_for_its_size_is_smoothed_or_marked():
    """The plain call is off by more than half a pixel here, the tool is right."""
    made = scene(Case(21, 24 * 21, 0.5, False, 3, tilt=10))
    assert errors(plain, made, made.given).max() > 0.5
    found = this_tool(made, made.given)
    assert judged(made, found).errors.max() < 0.1 and not found.marked


def test_the_decoder_counts_from_the_corner_of_the_first_pixel():
    """Its corners less half a pixel lie about the true ones, in the mean of some upright labels."""
    scenes = [scene(Case(21, 120, 0.6, False, seed, tilt=0)) for seed in range(6)]
    off = np.mean([decoder(made).corners - made.corners for made in scenes], axis=(0, 1))
    assert np.abs(off - 0.5).max() < 0.35


def test_the_numbers_of_a_table():
    case = Case(21, 100, 0.8, False, 1)
    results = [Result(case, np.array([0.3, 0.4, 0.0, 0.0]), False), Result(case, np.array([0.0, 0.0, 0.0, 1.0]), True),
               Result(case, None, False)]
    n = numbers(results)
    assert n["rms"] == pytest.approx((1.25 / 8) ** 0.5) and n["median"] == 0
    assert (n["labels"], n["silent"], n["wrong"], n["unmarked"], n["marked"]) == (3, 1, 1, 0, 1)
    assert len(unmarked(results)) == 1 and np.isnan(numbers([])["rms"])
    assert compared({"one": results}, "one").count("\n") == 3


def test_the_bench_has_every_kind_of_label():
    made = list(cases())
    assert {case.dim for case in made} == {21, 25, 33, 45} and {case.side for case in made} == {60, 100, 160, 250, 400, 600}
    assert len({case.seed for case in made}) == len(made) and {case.lens for case in made} == {False, True}


@pytest.mark.parametrize("module", [4, 8, 24])
def test_a_label_too_blurred_is_marked_and_one_in_the_band_is_not(module):
    for blur, marked in ((0.1, False), (0.15, False), (0.33, True), (0.4, True)):
        made = scene(Case(21, 21 * module, blur * module, False, 5, tilt=10))
        assert this_tool(made, made.given).marked == marked, blur


@pytest.mark.parametrize("seed", [10000, 10001, 10002])
def test_a_label_at_the_lower_edge_of_the_band_is_not_sent_back_to_auto(seed):
    """Its blur measures 0.080 module under the rough corners, so it is left as it is, and 0.079 under the refined ones."""
    made = scene(Case(21, 21 * 12, 0.07 * 12, False, seed, tilt=5))
    found = this_tool(made, made.given)
    assert not found.marked and judged(made, found).errors.max() < 0.1


def test_the_blur_of_a_label_is_found_in_modules():
    made = [scene(Case(25, 25 * 10, blur * 10, True, 6)) for blur in (0.1, 0.25, 0.5)]
    found = [module_blur(one.picture, undistorted(one.camera, one.corners), one.grid, library_camera(one)) for one in made]
    assert np.abs(np.array(found) - [0.1, 0.25, 0.5]).max() <= 0.026
    flat = np.full((300, 300), 90, np.uint8)
    assert np.isnan(module_blur(flat, made[0].corners, made[0].grid, None))
