"""The binding for Python: each call, its refusals, what is passed wrongly, threads, and where the library is looked for."""
from __future__ import annotations

import ctypes
import math
import pickle
import re
import shutil
import subprocess
import sys
from concurrent.futures import ThreadPoolExecutor
from dataclasses import asdict, replace
from hashlib import sha256
from pathlib import Path

import numpy as np
import pytest
import trufolmesca
from trufolmesca import Border, Camera, Fisheye, Intrinsics, Lens, LibraryMissing, Line, Number, Refused, Settings
from trufolmesca import library as library_module
from trufolmesca.arguments import photograph_arguments

PLAIN = Intrinsics(300.0, 300.0, 120.0, 120.0)
CAMERA = Camera(PLAIN, PLAIN)
NAN_CORNERS = np.full((4, 2), np.nan)
RANGES = {"probe_fraction_first": (0, 1), "probe_fraction_second": (0, 1), "edge_margin_modules": (1, 10), "max_points_per_edge": (1, 354),
          "min_edge_points": (2, 354), "contrast_floor": (1, 255), "outlier_floor_modules": (0, 100),
          "outlier_median_multiplier": (0, 100), "rounds": (1, 4)}
WHOLE = ("max_points_per_edge", "min_edge_points", "contrast_floor", "rounds")
SCAN = np.zeros(5, np.uint16)
C_TYPES = {"uint32_t": ctypes.c_uint32, "uint8_t": ctypes.c_uint8, "size_t": ctypes.c_size_t, "double": ctypes.c_double,
           "bool": ctypes.c_bool, "void": None}


@pytest.fixture(scope="module")
def example(root):
    """Picture, modules and rough corners of examples/."""
    picture = np.frombuffer((root / "examples/label.pgm").read_bytes()[-57600:], np.uint8).reshape(240, 240)
    grid = np.array([[int(c) for c in row] for row in (root / "examples/label.grid").read_text().split()])
    rough = np.array((root / "examples/label.rough").read_text().split(), float).reshape(4, 2)
    return picture, grid, rough


def printed(answer: trufolmesca.Answer) -> str:
    """An answer as the lines that the program label prints."""
    lines = ["result 0"]
    for index, ((x, y), flag) in enumerate(zip(answer.corners, answer.refined)):
        lines.append(f"corner {index} {np.float64(x).view(np.uint64):016x} {np.float64(y).view(np.uint64):016x} {int(flag)}")
    for index, edge in enumerate(answer.edges):
        lines.append(f"edge {index} {edge.probed} {edge.fit} {edge.dropped} {int(edge.valid)}")
    return "\n".join(lines) + "\n"


def refusal_of(call, *arguments, **options) -> Refused:
    """The refusal that a call ends in."""
    with pytest.raises(Refused) as caught:
        call(*arguments, **options)
    return caught.value


# ---- answers


def test_the_example_is_answered_as_by_the_program(example, root):
    stored = (root / "crates/label/stdout").read_text()
    assert printed(trufolmesca.refine_corners(*example)) == stored
    marked = trufolmesca.refine_corners_marking(*example)
    assert printed(marked) == stored and marked.marks.sheet.sum() == 5607


def test_the_copy_gives_the_same_again(example):
    picture, grid, rough = example
    first = trufolmesca.refine_corners_marking(picture, grid, rough)
    again = trufolmesca.refine_corners_marking(first.marks.copy, grid, rough)
    assert printed(first) == printed(again)
    assert (first.marks.sheet == again.marks.sheet).all() and (first.marks.copy == again.marks.copy).all()
    assert (first.marks.copy == np.where(first.marks.sheet == 1, picture, 0)).all()


def test_a_camera_without_lens_changes_nothing(example):
    assert printed(trufolmesca.refine_corners_mapped(*example, CAMERA)) == printed(trufolmesca.refine_corners(*example))
    marked = trufolmesca.refine_corners_mapped_marking(*example, CAMERA)
    assert (marked.marks.sheet == trufolmesca.refine_corners_marking(*example).marks.sheet).all()


def test_scales_and_polarity_are_handed_on(example):
    picture, grid, rough = example
    plain = printed(trufolmesca.refine_corners(*example))
    assert printed(trufolmesca.refine_corners(picture, grid, rough * [2, 4], scale=(2, 4))) == plain
    negative = trufolmesca.refine_corners(255 - picture, grid == 1, rough, inverted=np.bool_(True))
    assert negative.corners == pytest.approx(trufolmesca.refine_corners(*example).corners, abs=1e-6)


def test_maps():
    corners = [[1, 2], [9, 3], [8, 11], [0, 9]]
    there = trufolmesca.square_to_quad(corners)
    assert trufolmesca.map_point(there, 1, 1) == pytest.approx((8, 11))
    back = trufolmesca.then(there, trufolmesca.inverse(there))
    assert back / back[2, 2] == pytest.approx(np.eye(3), abs=1e-12)
    moved = trufolmesca.quad_to_quad(corners, [[0, 0], [1, 0], [1, 1], [0, 1]])
    assert trufolmesca.map_point(moved, 9, 3) == pytest.approx((1, 0))
    assert trufolmesca.scaled(2, 3) == pytest.approx(np.diag([2, 3, 1]))
    assert refusal_of(trufolmesca.square_to_quad, np.zeros((4, 2))).number == Number.QUAD


def test_lines():
    first = trufolmesca.fit_line_tls_weighted([[0, 0], [2, 2], [4, 4]], [1, 1, 1])
    second = trufolmesca.fit_line_tls_weighted([[0, 4], [4, 0]], [1, 1])
    assert trufolmesca.intersect_lines(first, second) == pytest.approx((2, 2))
    for points, weights, number in (([[0, 0]], [1], 13), ([[0, 0], [1, 1]], [1], 14), ([[0, 0], [np.inf, 1]], [1, 1], 15),
                                    ([[0, 0], [1, 1]], [-1, 1], 16), ([[1, 1], [1, 1]], [1, 1], 10)):
        assert refusal_of(trufolmesca.fit_line_tls_weighted, points, weights).number == number
    assert refusal_of(trufolmesca.intersect_lines, first, first).number == Number.PARALLEL
    assert trufolmesca.sqrt(2) == 2.0 ** 0.5


def test_samples_and_edge_points():
    picture = np.tile(np.array([0, 0, 0, 0, 100, 200, 200, 200, 200, 200], np.uint8), (9, 1))
    assert trufolmesca.sample_bilinear(picture, 4.5, 2) == 150
    assert trufolmesca.sample_bilinear(picture, np.float32(-5), 2, Border.CLAMP) == 0
    assert trufolmesca.sample_bilinear(picture, -5, 2, Border.CONSTANT, 7) == 7
    assert refusal_of(trufolmesca.sample_bilinear, picture, -5, 2).number == Number.OUTSIDE
    point = trufolmesca.localize_edge_point(picture, (4.3, 4.0), (-1.0, 0.0), 1.0, inverted=True)
    assert point.x == pytest.approx(4.0, abs=0.2) and point.y == pytest.approx(4.0)
    assert trufolmesca.localize_edge_point_mapped(picture, CAMERA, (4.3, 4.0), (-1.0, 0.0), 1.0, inverted=True) == point
    flat = np.zeros((9, 10), np.uint8)
    assert refusal_of(trufolmesca.localize_edge_point, flat, (4.3, 4.0), (-1.0, 0.0), 1.0).number == Number.PROFILE


def test_a_place_behind_a_lens():
    camera = Camera(PLAIN, PLAIN, Lens(-0.1, 0.02, 0.001, -0.002, 0.003))
    x, y = 0.5, -0.25
    r2 = x * x + y * y
    radial = 1 - 0.1 * r2 + 0.02 * r2 ** 2 + 0.003 * r2 ** 3
    expected = (300 * (x * radial + 0.002 * x * y - 0.002 * (r2 + 2 * x * x)) + 120,
                300 * (y * radial + 0.001 * (r2 + 2 * y * y) - 0.004 * x * y) + 120)
    assert trufolmesca.rectified_to_source(camera, 300 * x + 120, 300 * y + 120) == pytest.approx(expected)
    assert refusal_of(trufolmesca.rectified_to_source, camera, np.inf, 0).number == Number.PLACE


def test_a_place_behind_a_fisheye(example):
    camera = Camera(PLAIN, PLAIN, Fisheye(0.1, -0.05, 0.02, -0.01))
    x, y = 1.5, -0.75
    r = math.hypot(x, y)
    angle = math.atan(r)
    bent = angle + 0.1 * angle ** 3 - 0.05 * angle ** 5 + 0.02 * angle ** 7 - 0.01 * angle ** 9
    expected = (300 * x * bent / r + 120, 300 * y * bent / r + 120)
    assert trufolmesca.rectified_to_source(camera, 300 * x + 120, 300 * y + 120) == pytest.approx(expected, abs=1e-9)
    assert trufolmesca.rectified_to_source(camera, 120, 120) == (120, 120)
    folded = Camera(PLAIN, PLAIN, Fisheye(-9, 0, 0, 0))
    assert refusal_of(trufolmesca.rectified_to_source, folded, 420, 120).number == Number.PLACE
    # Near the identity, since tan a is a + a ** 3 / 3 + 2 * a ** 5 / 15 + ..
    straight = Camera(PLAIN, PLAIN, Fisheye(1 / 3, 2 / 15, 17 / 315, 62 / 2835))
    marked = trufolmesca.refine_corners_mapped_marking(*example, straight)
    assert marked.corners == pytest.approx(trufolmesca.refine_corners(*example).corners, abs=0.01)
    again = trufolmesca.refine_corners_mapped_marking(marked.marks.copy, *example[1:], straight)
    assert printed(again) == printed(marked) and (again.marks.sheet == marked.marks.sheet).all()


# ---- settings


def test_the_default_settings_give_what_the_calls_without_settings_give(example):
    for settings in (Settings(), Settings(max_points_per_edge=np.float32(64.0), rounds=np.uint8(2))):
        assert printed(trufolmesca.refine_corners(*example, settings=settings)) == printed(trufolmesca.refine_corners(*example))
        through = trufolmesca.refine_corners_mapped(*example, CAMERA, settings=settings)
        assert printed(through) == printed(trufolmesca.refine_corners_mapped(*example, CAMERA))
        plain, marked = trufolmesca.refine_corners_marking(*example), trufolmesca.refine_corners_marking(*example, settings=settings)
        assert printed(marked) == printed(plain) and (marked.marks.sheet == plain.marks.sheet).all()
        bent = Camera(PLAIN, PLAIN, Lens(-0.001, 0.0005, 0.0001, 0.0002, 0.0))
        plain = trufolmesca.refine_corners_mapped_marking(*example, bent)
        marked = trufolmesca.refine_corners_mapped_marking(*example, bent, settings=settings)
        assert printed(marked) == printed(plain) and (marked.marks.copy == plain.marks.copy).all()


def test_the_defaults_are_those_of_the_library(root):
    source = (root / "crates/consts/src/lib.rt").read_text().split("pub fn defaults()")[1].split("\n}")[0]
    assert {name: float(value) for name, value in re.findall(r"(\w+): ([0-9.]+),", source)} == asdict(Settings())


def test_every_setting_is_handed_on_in_its_place(example):
    plain = trufolmesca.refine_corners_marking(*example)
    others = {"probe_fraction_first": 0.2, "probe_fraction_second": 0.9, "edge_margin_modules": 5.0, "max_points_per_edge": 10,
              "min_edge_points": 28, "contrast_floor": 160, "outlier_floor_modules": 0.3, "outlier_median_multiplier": 0.5, "rounds": 1}
    narrow = Settings(outlier_floor_modules=0.0, outlier_median_multiplier=1.0)
    for name, value in others.items():
        base = narrow if name.startswith("outlier") else Settings()
        before, after = (trufolmesca.refine_corners_marking(*example, settings=settings) for settings in (base, replace(base, **{name: value})))
        assert printed(after) != printed(before) or (after.marks.sheet != before.marks.sheet).any(), name
        if name == "max_points_per_edge":
            assert max(edge.probed for edge in after.edges) == 10
        if name == "min_edge_points":
            assert [edge.valid for edge in after.edges] == [edge.fit >= 28 for edge in plain.edges]
        if name == "rounds":
            assert after.marks.sheet.sum() < before.marks.sheet.sum()


def test_the_copy_gives_the_same_again_under_the_same_settings(example):
    settings = Settings(0.1, 0.9, 2.0, 354, 4, 30, 0.05, 3.0, 4)
    for camera in ((), (CAMERA,)):
        call = trufolmesca.refine_corners_mapped_marking if camera else trufolmesca.refine_corners_marking
        first = call(*example, *camera, settings=settings)
        again = call(first.marks.copy, *example[1:], *camera, settings=settings)
        assert printed(first) == printed(again) and (first.marks.sheet == again.marks.sheet).all()
        assert (first.marks.copy == again.marks.copy).all() and max(edge.probed for edge in first.edges) > 20


@pytest.mark.parametrize("name", RANGES)
def test_a_setting_out_of_its_range_is_25(example, name):
    low, high = RANGES[name]
    beyond = [np.nextafter(low, -1.0), np.nextafter(high, 1e9), low - 1, high + 1, np.nan, np.inf, -np.inf, 1e308, 2 ** 64, -10 ** 400]
    wrong = beyond + ([low + 0.5, np.nextafter(high, 0.0), 2.0 ** 32 + low] if name in WHOLE else [])
    for value in wrong:
        refusal = refusal_of(trufolmesca.refine_corners_marking, *example, settings=replace(Settings(), **{name: value}))
        assert refusal.number == Number.SETTINGS and refusal.marks is None, value
        assert refusal_of(trufolmesca.refine_corners, *example, settings=replace(Settings(), **{name: value})).number == 25, value
    for value in (low, high, -0.0 if low == 0 else low):
        try:
            trufolmesca.refine_corners(*example, settings=replace(Settings(), **{name: value}))
        except Refused as refusal:
            assert refusal.number in (Number.THIN, Number.LINE), value


def test_settings_are_tested_behind_the_camera_and_before_all_computing(example):
    picture, grid, rough = example
    wrong = Settings(rounds=5)
    blind = Camera(PLAIN, Intrinsics(0.0, 1.0, 0.0, 0.0))
    assert refusal_of(trufolmesca.refine_corners_mapped, *example, blind, settings=wrong).number == Number.LENS
    assert refusal_of(trufolmesca.refine_corners, picture, grid, NAN_CORNERS, settings=wrong).number == Number.CORNER
    assert refusal_of(trufolmesca.refine_corners, picture, grid, np.zeros((4, 2)), settings=wrong).number == Number.SETTINGS


def test_an_edge_point_under_settings():
    picture = np.tile(np.array([0, 0, 0, 0, 100, 200, 200, 200, 200, 200], np.uint8), (9, 1))
    ray = (4.3, 4.0), (-1.0, 0.0), 1.0, True
    plain = trufolmesca.localize_edge_point(picture, *ray)
    assert trufolmesca.localize_edge_point(picture, *ray, settings=Settings(contrast_floor=150)) == plain
    assert trufolmesca.localize_edge_point_mapped(picture, CAMERA, *ray, settings=Settings()) == plain
    assert refusal_of(trufolmesca.localize_edge_point, picture, *ray, settings=Settings(contrast_floor=201)).number == Number.PROFILE
    assert refusal_of(trufolmesca.localize_edge_point, picture, *ray, settings=Settings(contrast_floor=0)).number == Number.SETTINGS
    blind = Camera(PLAIN, Intrinsics(0.0, 1.0, 0.0, 0.0))
    assert refusal_of(trufolmesca.localize_edge_point_mapped, picture, blind, *ray, settings=Settings(rounds=0)).number == Number.LENS


# ---- scans


def mean_around(scan: list[int], i: int, reach: int) -> int:
    """The mean of the heights up to `reach` from i, rounded down."""
    heights = scan[max(0, i - reach):i + reach + 1]
    return sum(heights) // len(heights)


@pytest.mark.parametrize("window", [3, 5, 31])
@pytest.mark.parametrize("length", [0, 1, 2, 3, 16, 31, 32, 100])
def test_a_scan_is_smoothed_in_every_way_alike(window, length):
    scan = [(i * i * 7919 + 65000 * (i % 3)) % 65536 for i in range(length)]
    expected = [mean_around(scan, i, window // 2) for i in range(length)]
    assert trufolmesca.smooth_to(scan, window).tolist() == expected
    assert trufolmesca.smooth_to(np.repeat(np.array(scan, np.uint16), 2)[::2], np.uint8(window)).tolist() == expected
    out = np.full(length + 3, 7, np.uint16)
    assert trufolmesca.smooth_to(np.array(scan, np.uint16), window, out) is out and out.tolist() == expected + [7] * 3
    over = np.array(scan, np.uint16)
    trufolmesca.smooth_over(over, window)
    assert over.tolist() == expected


def test_a_scan_that_is_refused_stays():
    scan, short = np.array([9, 8, 7], np.uint16), np.array([5, 5], np.uint16)
    for window in (0, 1, 2, 4, 32, 33, -3, 2 ** 32 + 3):
        assert refusal_of(trufolmesca.smooth_to, scan, window, short).number == Number.WINDOW
        assert refusal_of(trufolmesca.smooth_over, scan, window).number == Number.WINDOW
    assert refusal_of(trufolmesca.smooth_to, [], 2).number == Number.WINDOW
    assert refusal_of(trufolmesca.smooth_to, scan, 3, short).number == Number.ROOM
    assert scan.tolist() == [9, 8, 7] and short.tolist() == [5, 5]


# ---- cards


def result_card(tag: int, wide: int, largest: int = 255) -> bytes:
    """A result card of so many bytes a count, of counts up to this one."""
    counts = b"".join(b"".join((largest - k).to_bytes(wide, "little") for k in range(3)) + bytes([e % 2]) for e in range(4))
    fields = ((16, bytes(range(64))), (tag, counts), (18, bytes([1, 0, 1, 1])))
    return b"".join(bytes([tag]) + len(contents).to_bytes(2, "little") + contents for tag, contents in fields)


def test_a_result_card_goes_to_the_other_form_and_back():
    older, newer = result_card(17, 1), result_card(19, 2)
    assert (len(older), len(newer)) == (trufolmesca.OLDER_RESULT_CARD_SIZE, trufolmesca.RESULT_CARD_SIZE)
    assert trufolmesca.widen_result_card(older) == newer and trufolmesca.narrow_result_card(newer) == older
    assert trufolmesca.widen_result_card(memoryview(bytearray(older))) == newer
    for call, card in ((trufolmesca.widen_result_card, newer), (trufolmesca.narrow_result_card, older),
                       (trufolmesca.widen_result_card, b""), (trufolmesca.narrow_result_card, newer + b"\0")):
        assert refusal_of(call, card).number == Number.FORM
    assert refusal_of(trufolmesca.narrow_result_card, result_card(19, 2, 256)).number == Number.COUNT


def test_a_job_card_is_run(root):
    job = (root / "examples" / "label.card").read_bytes()
    card = trufolmesca.run_card(job)
    corners = np.frombuffer(card, "<f8", 8, 3).reshape(4, 2)
    printed_bits = [line.split()[2:4] for line in (root / "crates/label/stdout").read_text().splitlines() if line.startswith("corner")]
    assert [[f"{bits:016x}" for bits in place] for place in corners.view("<u8").tolist()] == printed_bits
    assert card == trufolmesca.widen_result_card(trufolmesca.narrow_result_card(card))
    assert refusal_of(trufolmesca.run_card, job[:-1]).number == Number.CARD


# ---- refusals


def test_what_the_library_refuses_is_raised_with_its_number(example):
    picture, grid, rough = example
    refine = trufolmesca.refine_corners_marking
    for number, arguments in ((Number.SIZE, (np.zeros((2, 16385), np.uint8), grid, rough)),
                              (Number.SIZE, (np.zeros((0, 2 ** 32 + 240), np.uint8), grid, rough)),
                              (Number.GRID, (picture, grid + 5, rough)), (Number.GRID, (picture, grid * 255, rough)),
                              (Number.GRID, (picture, grid - 1, rough)), (Number.GRID, (picture, grid[:1, :1], rough)),
                              (Number.CORNER, (picture, grid, NAN_CORNERS)), (Number.QUAD, (picture, grid, np.zeros((4, 2)))),
                              (Number.THIN, (np.full_like(picture, 9), grid, rough))):
        assert refusal_of(refine, *arguments).number == number
    assert refusal_of(refine, *example, scale=(0.0, 1.0)).number == Number.SCALE
    for lens in (Lens(np.nan, 0, 0, 0, 0), Lens(0, 0, 0, 0, np.inf), Fisheye(0, 0, 0, np.inf)):
        assert refusal_of(trufolmesca.refine_corners_mapped, *example, Camera(PLAIN, PLAIN, lens)).number == Number.LENS


def test_a_refusal_says_its_number_and_word():
    refusal = Refused(9)
    assert isinstance(refusal, ValueError) and refusal.word == trufolmesca.WORDS[9]
    assert str(refusal) == f"refused by 9: {refusal.word}"
    assert "which this version does not know" in Refused(99).word


def test_a_refusal_behind_7_carries_sheet_and_copy_also_to_another_process(example):
    picture, grid, rough = example
    assert refusal_of(trufolmesca.refine_corners_marking, picture, grid, NAN_CORNERS).marks is None
    assert refusal_of(trufolmesca.refine_corners, np.full_like(picture, 9), grid, rough).marks is None
    late = refusal_of(trufolmesca.refine_corners_marking, np.full_like(picture, 9), grid, rough)
    assert late.marks.sheet.sum() > 0 and (late.marks.copy == 9 * late.marks.sheet).all()
    again = pickle.loads(pickle.dumps(late))
    assert (again.number, str(again)) == (late.number, str(late)) and (again.marks.sheet == late.marks.sheet).all()


# ---- arguments


@pytest.mark.parametrize("wrong, error, said", [
    (lambda p: np.dstack([p] * 3), ValueError, r"the photograph has the shape \(240, 240, 3\), not rows and columns: make a colour"),
    (lambda p: p.astype(float), TypeError, "the photograph is of float64, not of uint8"),
    (lambda p: p.astype(np.uint16), TypeError, "the photograph is of uint16"),
    (lambda p: p > 9, TypeError, "the photograph is of bool"),
    (lambda p: p.tolist(), TypeError, "the photograph is of int64"),
    (lambda p: [[1, 2], [3]], ValueError, "the photograph: the rows have different lengths"),
    (lambda p: None, TypeError, "the photograph is of object")])
def test_a_picture_that_is_none_is_said(example, wrong, error, said):
    picture, grid, rough = example
    with pytest.raises(error, match=said):
        trufolmesca.refine_corners_marking(wrong(picture), grid, rough)


@pytest.mark.parametrize("wrong, error, said", [
    (lambda g: g[:20], ValueError, r"the modules have the shape \(20, 21\), not as many rows as columns"),
    (lambda g: g.ravel(), ValueError, r"the modules have the shape \(441,\)"),
    (lambda g: g * 1.0, TypeError, "the modules are of float64, not bools or whole numbers"),
    (lambda g: [["1"]], TypeError, "the modules are of <U1"),
    (lambda g: [[1], [0, 1]], ValueError, "the modules: the rows have different lengths")])
def test_modules_that_are_none_are_said(example, wrong, error, said):
    picture, grid, rough = example
    with pytest.raises(error, match=said):
        trufolmesca.refine_corners(picture, wrong(grid), rough)


@pytest.mark.parametrize("corners, error, said", [
    (np.zeros((3, 2)), ValueError, r"the corners: the shape is \(3, 2\), not 4 by 2"),
    (np.zeros(8), ValueError, r"the corners: the shape is \(8,\), not 4 by 2"),
    ([[1, 2], [3, 4], [5, 6], [7]], ValueError, "the corners: the rows have different lengths"),
    ([[1, 2], [3, 4], [5, 6], [7, None]], TypeError, "the corners: numbers are wanted, not object"),
    ([["1", "2"]] * 4, TypeError, "the corners: numbers are wanted, not <U1"),
    (np.zeros((4, 2), complex), TypeError, "the corners: numbers are wanted, not complex128"),
    (None, TypeError, "the corners: numbers are wanted, not object")])
def test_corners_that_are_none_are_said(example, corners, error, said):
    picture, grid, _ = example
    with pytest.raises(error, match=said):
        trufolmesca.refine_corners(picture, grid, corners)


@pytest.mark.parametrize("options, error, said", [
    (dict(inverted=None), TypeError, "inverted is True or False, not None"),
    (dict(inverted=1), TypeError, "inverted is True or False, not 1"),
    (dict(scale=2.0), ValueError, r"the scale: the shape is \(\), not 2"),
    (dict(scale=("1", "1")), TypeError, "the scale: numbers are wanted"),
    (dict(settings=[0.35] * 9), TypeError, "settings is of class Settings, not list"),
    (dict(settings=Settings(rounds=None)), TypeError, "rounds: numbers are wanted, not object"),
    (dict(settings=Settings(rounds=True)), TypeError, "rounds is a number, not True"),
    (dict(settings=Settings(edge_margin_modules=[1, 2])), ValueError, r"edge_margin_modules: the shape is \(2,\), not one number")])
def test_options_of_another_kind_are_said(example, options, error, said):
    with pytest.raises(error, match=said):
        trufolmesca.refine_corners(*example, **options)


def placed(camera: object = CAMERA, x: object = 1, y: object = 2) -> tuple[float, float]:
    """A call through a camera, of which one argument is wrong."""
    return trufolmesca.rectified_to_source(camera, x, y)


@pytest.mark.parametrize("call, error, said", [
    (lambda p: placed(None), TypeError, "the camera is of class Camera, not NoneType"),
    (lambda p: placed(Camera(PLAIN, (1, 1, 0, 0))), TypeError, "rectified picture is of class Intrinsics, not tuple"),
    (lambda p: placed(Camera(None, PLAIN)), TypeError, "the camera's source is of class Intrinsics"),
    (lambda p: placed(Camera(PLAIN, PLAIN, [0] * 5)), TypeError, "the camera's lens is of class Lens or Fisheye, not list"),
    (lambda p: placed(Camera(PLAIN, Intrinsics(1, None, 1, 1))), TypeError, "the camera: numbers"),
    (lambda p: placed(x="1"), TypeError, "x: numbers are wanted"),
    (lambda p: placed(y=10 ** 400), TypeError, "y: numbers are wanted"),
    (lambda p: trufolmesca.sample_bilinear(p, 1, 2, 3), ValueError, "3 is not a valid Border"),
    (lambda p: trufolmesca.sample_bilinear(p, 1, 2, Border.CONSTANT, 256), ValueError, "the constant is a whole number from 0 to 255"),
    (lambda p: trufolmesca.sample_bilinear(p, [1], 2), ValueError, r"x: the shape is \(1,\), not one number"),
    (lambda p: trufolmesca.localize_edge_point(p, (1, 2, 3), (1, 0), 1), ValueError, r"the place: the shape is \(3,\), not 2"),
    (lambda p: trufolmesca.localize_edge_point(p, (1, 2), (1, 0), 1, False, None), TypeError, "inward_differs is True or False"),
    (lambda p: trufolmesca.localize_edge_point(p, (1, 2), (1, 0), 1, settings={"rounds": 2}), TypeError, "settings is of class Settings, not dict"),
    (lambda p: trufolmesca.localize_edge_point(p, (1, 2), (1, 0), 1, settings=Settings(rounds="2")), TypeError, "rounds: numbers"),
    (lambda p: trufolmesca.map_point(np.zeros(9), 0, 0), ValueError, r"the map: the shape is \(9,\), not 3 by 3"),
    (lambda p: trufolmesca.fit_line_tls_weighted([1, 2, 3, 4], [1, 1]), ValueError, r"the points: the shape is \(4,\), not n by 2"),
    (lambda p: trufolmesca.fit_line_tls_weighted([[1, 2], [3, 4]], 1), ValueError, r"the weights: the shape is \(\), not n"),
    (lambda p: trufolmesca.intersect_lines((0, 1), (1, 0)), TypeError, "the first is of class Line, not tuple"),
    (lambda p: trufolmesca.intersect_lines(Line((0, 0), (1, 0)), Line((0, 0), (1, 0, 2))), ValueError, "the second: the rows have"),
    (lambda p: trufolmesca.smooth_to([1, -1], 3), ValueError, "the scan: a height is a whole number from 0 to 65535"),
    (lambda p: trufolmesca.smooth_to([1, 65536], 3), ValueError, "the scan: a height is a whole number from 0 to 65535"),
    (lambda p: trufolmesca.smooth_to([1.5], 3), TypeError, "the scan: whole numbers are wanted, not float64"),
    (lambda p: trufolmesca.smooth_to(p, 3), ValueError, r"the scan: the shape is \(240, 240\), not n"),
    (lambda p: trufolmesca.smooth_to([1], 3.0), TypeError, "integer"),
    (lambda p: trufolmesca.smooth_to([1], 3, [0]), TypeError, "out is of class ndarray, not list"),
    (lambda p: trufolmesca.smooth_to([1], 3, np.zeros(1)), TypeError, "out is of float64, not of uint16"),
    (lambda p: trufolmesca.smooth_to([1], 3, np.zeros(4, np.uint16)[::2]), ValueError, "out is not one list of heights"),
    (lambda p: trufolmesca.smooth_over(np.frombuffer(b"abcd", np.uint16), 3), ValueError, "the scan is not one list of heights"),
    (lambda p: trufolmesca.smooth_over([1, 2, 3], 3), TypeError, "the scan is of class ndarray, not list"),
    (lambda p: trufolmesca.smooth_to(SCAN[1:], 3, SCAN), ValueError, "out is a part of the scan: smooth_over"),
    (lambda p: trufolmesca.sqrt(None), TypeError, "x: numbers are wanted")])
def test_other_arguments_of_another_kind_are_said(example, call, error, said):
    with pytest.raises(error, match=said):
        call(example[0])


def views(picture: np.ndarray) -> dict[str, np.ndarray]:
    """Arrays that look like the picture and lie otherwise in memory."""
    height, width = picture.shape
    wide, enormous = np.full((300, 300), 7, np.uint8), np.full((height, 70000), 7, np.uint8)
    wide[20:20 + height, 30:30 + width], enormous[:, :width] = picture, picture
    read_only = picture.copy()
    read_only.flags.writeable = False
    return {"slice": wide[20:20 + height, 30:30 + width], "every second row": np.repeat(picture, 2, axis=0)[::2],
            "columns first": np.asfortranarray(picture), "backwards": picture[::-1, ::-1].copy()[::-1, ::-1],
            "every second column": np.repeat(picture, 2, axis=1)[:, ::2], "rows far apart": enormous[:, :width],
            "read only": read_only}


def test_a_view_of_a_picture_is_read_as_it_looks(example):
    picture, grid, rough = example
    expected = trufolmesca.refine_corners_marking(picture, grid, rough)
    for kind, view in views(picture).items():
        assert np.array_equal(view, picture), kind
        marked = trufolmesca.refine_corners_marking(view, grid, rough)
        assert printed(marked) == printed(expected), kind
        assert (marked.marks.copy == expected.marks.copy).all() and marked.marks.copy.shape == picture.shape, kind


def test_rows_that_lie_in_one_piece_are_not_copied(example):
    shared = {kind for kind, view in views(example[0]).items() if np.shares_memory(photograph_arguments(view)[0], view)}
    assert shared == {"slice", "every second row", "read only"}
    corner = np.zeros((9, 9), np.uint8)[4:, 5:]
    pixels, *sides = photograph_arguments(corner)
    assert (len(pixels), *sides) == (4 * 9 + 4, 4, 5, 9)
    one_row, one_column = corner[:1], corner[:, :1]
    assert photograph_arguments(one_row)[1:] == (4, 1, 4) and photograph_arguments(one_column)[1:] == (1, 5, 9)


def test_what_is_passed_is_never_written_and_what_comes_back_is_new(example):
    picture, grid, rough = (array.copy() for array in example)
    first, second = (trufolmesca.refine_corners_marking(picture, grid, rough) for _ in range(2))
    for passed, kept in zip((picture, grid, rough), example):
        assert (passed == kept).all()
    own = [first.marks.sheet, first.marks.copy, second.marks.sheet, second.marks.copy, first.corners, second.corners]
    for index, array in enumerate(own):
        assert array.flags.writeable
        assert not any(np.shares_memory(array, other) for other in [picture, rough, *own[:index]])


# ---- threads


def test_threads_on_their_own_arrays_give_what_one_gives(example):
    picture, grid, rough = example
    noise = np.random.default_rng(1).integers(0, 8, (32, *picture.shape), np.uint8)
    photographs = list(picture // 2 + noise)
    alone = [trufolmesca.refine_corners_marking(one, grid, rough) for one in photographs]
    with ThreadPoolExecutor(8) as pool:
        together = list(pool.map(lambda one: trufolmesca.refine_corners_marking(one, grid, rough), photographs))
    for one, other in zip(alone, together):
        assert printed(one) == printed(other)
        assert (one.marks.sheet == other.marks.sheet).all() and (one.marks.copy == other.marks.copy).all()
    assert len({printed(one) for one in alone}) == len(photographs)


def test_calls_run_without_pythons_lock():
    assert isinstance(trufolmesca.load_library(), ctypes.CDLL) and not isinstance(trufolmesca.load_library(), ctypes.PyDLL)


# ---- the library


def test_every_call_is_declared_as_in_the_header(root):
    header = (root / "bindings/trufolmesca.h").read_text()
    prototypes = re.findall(r"^(?!static)(?:[A-Z_]+ )?(uint32_t|void|double) trufolmesca_(\w+)\(([^()]*)\);", header, re.M)
    declared = {name: (C_TYPES[result], [argument_type(argument) for argument in arguments.split(",")])
                for result, name, arguments in prototypes}
    assert declared == library_module.SIGNATURES


def argument_type(argument: str) -> type:
    """An argument of a C prototype as ctypes has it."""
    return ctypes.c_void_p if "*" in argument else C_TYPES[argument.split()[0]]


def packaged(folder: Path, root: Path) -> Path:
    """The package's Python in a folder of its own, without the shared object."""
    left_out = shutil.ignore_patterns("libtrufolmesca.*", "__pycache__")
    shutil.copytree(root / "bindings/python/trufolmesca", folder / "trufolmesca", ignore=left_out)
    return folder / "trufolmesca"


def said_by(package: Path, **environment: str) -> str:
    """What a program prints that loads the library by this package: its path, a root and its archive's hash, or why there is none."""
    program = ("import sys; sys.path.insert(0, sys.argv[1]); import trufolmesca as t\n"
               "try: print(t.library_path(), t.load_library() and t.sqrt(9.0), t.archive_sha256())\n"
               "except t.LibraryMissing as why: print(why)")
    return subprocess.run([sys.executable, "-I", "-B", "-c", program, package.parent], env=environment, capture_output=True,
                          text=True, check=True, cwd=package).stdout.strip()


def test_where_the_library_and_its_archives_hash_are_looked_for(root, library, archive, tmp_path):
    package = packaged(tmp_path, root)
    (package / "libtrufolmesca.archive-sha256").write_text("0123\n")
    assert said_by(package, TRUFOLMESCA_LIBRARY=str(library)) == f"{library} 3.0 {sha256(archive.read_bytes()).hexdigest()}"
    (tmp_path / "system").mkdir()
    shutil.copy(library, tmp_path / "system" / "libtrufolmesca.so.0")
    assert said_by(package, LD_LIBRARY_PATH=str(tmp_path / "system")) == "libtrufolmesca.so.0 3.0 None"
    shutil.copy(library, package / "libtrufolmesca.so.0")
    assert said_by(package, LD_LIBRARY_PATH=str(tmp_path / "system")) == f"{package}/libtrufolmesca.so.0 3.0 0123"


def test_in_a_repository_the_library_is_the_one_that_is_built_there(root, library, archive, tmp_path):
    (tmp_path / "tools").mkdir()
    shutil.copy(root / "tools/setup", tmp_path / "tools/setup")
    package, built = packaged(tmp_path / "bindings/python", root), tmp_path / "target/lib/libtrufolmesca.so.0"
    assert said_by(package) == f"the library {built} cannot be used (it is not there): run tools/setup, or install it anew"
    built.parent.mkdir(parents=True)
    shutil.copy(library, built)
    shutil.copy(library.with_name("libtrufolmesca.archive-sha256"), built.parent)
    assert said_by(package) == f"{built} 3.0 {sha256(archive.read_bytes()).hexdigest()}"
    (package / "libtrufolmesca.so.0").symlink_to("nowhere")  # as it is installed, the package has its own
    assert said_by(package).startswith(f"the library {package}/libtrufolmesca.so.0 cannot be used")


def test_a_library_that_cannot_be_used_is_said(root, library, tmp_path):
    package = packaged(tmp_path, root)
    (tmp_path / "libtrufolmesca.so.0").write_text("no library, which the loader finds before any that is installed")
    assert re.fullmatch(r"the library libtrufolmesca.so.0 cannot be used \(.*too short\): install libtrufolmesca.so.0, or set "
                        "TRUFOLMESCA_LIBRARY to its path", said_by(package, LD_LIBRARY_PATH=str(tmp_path)))
    assert said_by(package, TRUFOLMESCA_LIBRARY="/none.so") == (
        "the library /none.so cannot be used (it is not there): TRUFOLMESCA_LIBRARY names it")
    other = tmp_path / "other.so"
    other.write_bytes(library.read_bytes().replace(b"libtrufolmesca.so.0", b"libtrufolmesca.so.1"))
    assert f"{other} cannot be used (it is not libtrufolmesca.so.0)" in said_by(package, TRUFOLMESCA_LIBRARY=str(other))
    other.write_bytes(library.read_bytes().replace(b"trufolmesca_sqrt", b"trufolmesca_root"))
    assert "undefined symbol: trufolmesca_sqrt" in said_by(package, TRUFOLMESCA_LIBRARY=str(other))
    (package / "libtrufolmesca.so.0").symlink_to("nowhere")
    assert said_by(package) == f"the library {package}/libtrufolmesca.so.0 cannot be used (it is not there): run tools/setup, or install it anew"
