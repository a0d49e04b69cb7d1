"""Measuring: corners close to the truth, what is written, and what is said where something is wrong."""
from __future__ import annotations

import csv
import multiprocessing
import os
import struct
from concurrent.futures import Executor, Future
from concurrent.futures.process import BrokenProcessPool

import numpy as np
import pytest
import trufolmesca
from rendered import GOOD_PX, SIZE, a_photograph, distance, encoded, two_labels

from tool import many
from tool.label import PATTERN_AGREEMENT, decode, edge_blur, fixed_patterns, pattern_agreement, read_grid, text_of
from tool.measure import Options, measure, preparation, refine_picture, Request
from tool.render import Label, encoded as modules_of, quad, render

KEYS = ["number", "word", "corners", "refined", "spread_px", "repeatable", "warnings", "photo", "photo_sha256", "text",
        "side_mm", "px_per_mm", "module_px", "rough", "rough_from", "request", "prepare", "answer", "read", "files",
        "copy_sha256", "sheet_sha256", "versions"]


def moved(corners: np.ndarray, modules: float, dim: int = 21, seed: int = 1) -> np.ndarray:
    """Corners moved at random by up to so many modules."""
    module = np.linalg.norm(corners[1] - corners[0]) / dim
    return corners + np.random.default_rng(seed).uniform(-modules, modules, (4, 2)) * module


def words(corners: np.ndarray) -> list[str]:
    """Corners as words of the command line."""
    return [repr(float(value)) for value in np.ravel(corners)]


def test_a_record_has_its_keys_in_order_and_its_files(measured):
    record = measured.record("find")
    assert list(record) == KEYS
    assert record["files"] == {kind: f"find.{kind}.png" for kind in ("blanked", "sheet", "overlay")}
    assert record["text"] == "FIND 1234" and record["rough_from"] == "decoder" and record["repeatable"] is True
    assert record["warnings"] == [] and record["refined"] == [True] * 4 and record["spread_px"] < 0.1
    assert sorted(path.name for path in measured.out.iterdir()) == [
        "find.blanked.png", "find.json", "find.overlay.png", "find.sheet.png", "summary.csv"]


def test_a_record_says_what_ran(measured):
    versions = measured.record("find")["versions"]
    assert versions["tool"] == trufolmesca.__version__
    assert versions["library_archive_sha256"] == trufolmesca.archive_sha256() and len(trufolmesca.archive_sha256()) == 64


def test_corners_and_pictures_are_right(measured):
    made, record = a_photograph(), measured.record("find")
    assert distance(record["corners"], made.corners) < GOOD_PX
    assert record["corners"] == record["answer"]["corners"] and record["request"]["grid"][0] == "".join(map(str, made.grid[0]))
    sheet, copy = measured.picture("find.sheet.png"), measured.picture("find.blanked.png")
    assert set(np.unique(sheet)) == {0, 255} and int((sheet == 255).sum()) == record["read"]
    assert (copy == np.where(sheet == 255, made.picture, 0)).all()
    sides = np.linalg.norm(np.roll(made.corners, -1, axis=0) - made.corners, axis=1)
    assert record["px_per_mm"] == pytest.approx(sides / 20, abs=0.02)


def test_bits_are_those_of_the_decimals(measured):
    for part in ("request", "answer"):
        fields = measured.record("find")[part]
        bits = [[struct.pack(">d", value).hex() for value in pair] for pair in fields["corners"]]
        assert bits == fields["corners_bits"]


def chunks(png: bytes) -> list[bytes]:
    """The kinds of a PNG's chunks."""
    kinds, at = [], 8
    while at < len(png):
        length, kind = struct.unpack(">I4s", png[at:at + 8])
        kinds.append(kind)
        at += 12 + length
    return kinds


def test_published_pictures_carry_no_metadata(measured):
    for kind in ("blanked", "sheet", "overlay"):
        assert set(chunks((measured.out / f"find.{kind}.png").read_bytes())) == {b"IHDR", b"IDAT", b"IEND"}


def test_the_summary_has_a_row_for_every_record(measured):
    measured.add("empty.png", np.full((90, 90), 200, np.uint8))
    assert measured.measure(measured.home / "empty.png") == 1
    rows = list(csv.DictReader((measured.out / "summary.csv").read_text().splitlines()))
    assert [row["name"] for row in rows] == ["empty", "find"]
    assert rows[1]["repeatable"] == "yes" and float(rows[1]["x0"]) == pytest.approx(measured.record("find")["corners"][0][0], abs=1e-4)
    assert rows[0]["number"] == "" and rows[0]["x0"] == "" and "no QR label" in rows[0]["word"]


def test_no_text_of_a_label_is_a_formula_in_the_summary(archive):
    assert archive.measure(archive.add("find.png", a_photograph("=1+1").picture)) == 0
    row, = csv.DictReader((archive.out / "summary.csv").read_text().splitlines())
    assert row["text"] == "'=1+1" and archive.record("find")["text"] == "=1+1"


def test_one_line_for_each_photograph(measured):
    measured.measure(measured.home / "find.png", measured.home / "none.png", "--jobs", 1)
    first, second = measured.said.splitlines()
    assert first.startswith("[1/2] ") and "find.png 'FIND 1234': (" in first and "repeats to 0.0" in first
    assert second.startswith("[2/2] ") and "refused: the file cannot be read" in second


def test_no_label(archive):
    record, = measure(archive.add("empty.png", np.full((90, 90), 200, np.uint8)))
    assert record.number is None and "no QR label was found" in record.word


def test_two_labels_have_a_record_each(archive):
    picture, upper, lower = two_labels()
    assert archive.measure(archive.add("find.png", picture)) == 0
    assert archive.record("find")["text"] == "UPPER" and archive.record("find-2")["text"] == "LOWER"
    assert distance(archive.record("find")["corners"], upper) < GOOD_PX
    assert distance(archive.record("find-2")["corners"], lower) < GOOD_PX
    assert archive.record("find-2")["files"]["sheet"] == "find-2.sheet.png"


def test_photographs_with_the_same_stem_have_names_of_their_own(archive):
    picture, _, _ = two_labels()
    photos = [archive.add("a/find.png", picture), archive.add("b/find.png", a_photograph("OTHER").picture),
              archive.add("find-2.png", a_photograph("THIRD").picture), archive.add("find_2.png", a_photograph("FOURTH").picture)]
    assert archive.measure(*photos, "--jobs", 2) == 0
    texts = {path.stem: archive.record(path.stem)["text"] for path in archive.out.glob("*.json")}
    assert texts == {"find": "UPPER", "find-3": "LOWER", "find_3": "OTHER", "find-2": "THIRD", "find_2": "FOURTH"}


def test_a_record_of_another_photograph_is_not_lost(measured):
    first = measured.record("find")
    assert measured.measure(measured.add("other/find.jpg", a_photograph("OTHER").picture)) == 0
    assert measured.record("find") == first and measured.record("find_2")["text"] == "OTHER"
    assert measured.measure(measured.home / "other/find.jpg", measured.home / "gone/find.png") == 1
    assert measured.record("find") == first and measured.record("find_2")["text"] == "OTHER"
    assert measured.record("find_3")["word"].startswith("the file cannot be read")


def test_labels_that_an_earlier_run_found_are_removed(archive):
    path = archive.add("find.png", two_labels()[0])
    archive.measure(path)
    other = archive.add("find-7.png", a_photograph("SEVEN").picture)
    archive.measure(other)
    assert (archive.out / "find-2.json").exists()
    assert archive.measure(path, "--corners", *words(two_labels()[1])) == 0
    assert sorted(path.name for path in archive.out.glob("*.json")) == ["find-7.json", "find.json"]
    assert not list(archive.out.glob("find-2*"))


def test_a_label_light_on_dark_is_found_out(archive):
    made = a_photograph(inverted=True)
    record, = measure(archive.add("find.png", made.picture))
    assert record.request["inverted"] is True and distance(record.corners, made.corners) < GOOD_PX
    given, = measure(archive.home / "find.png", Options(corners=moved(made.corners, 0.2)))
    assert given.request["inverted"] is True and distance(given.corners, made.corners) < GOOD_PX
    assert distance(measure(archive.home / "find.png", Options(inverted=True))[0].corners, made.corners) < GOOD_PX


def test_given_corners_need_no_decoder(archive):
    made = a_photograph()
    path = archive.add("find.png", made.picture)
    rough = moved(made.corners, 0.2)
    assert archive.measure(path, "--corners", *words(rough)) == 0
    record = archive.record("find")
    assert record["rough_from"] == "given" and record["rough"] == rough.tolist() and record["text"] == "FIND 1234"
    assert distance(record["corners"], made.corners) < GOOD_PX


def test_a_given_grid_is_taken(archive):
    made = a_photograph()
    grid = archive.add("label.grid", "\n".join("".join(map(str, row)) for row in made.grid).encode())
    assert archive.measure(archive.add("find.png", made.picture), "--corners", *words(made.corners), "--grid", grid) == 0
    assert archive.record("find")["warnings"] == []
    assert archive.measure(archive.home / "find.png", "--grid", grid) == 0


@pytest.mark.parametrize("turn, said", [
    (1, "second, third, fourth, first"), (2, "third, fourth, first, second"), (3, "fourth, first, second, third")])
def test_corners_in_another_order_are_said(archive, turn, said):
    made = a_photograph()
    path = archive.add("find.png", made.picture)
    record, = measure(path, Options(corners=np.roll(made.corners, turn, axis=0), grid=made.grid))
    assert record.number != 0 or any(f"another order: {said} of those given" in warning for warning in record.warnings)
    unread, = measure(path, Options(corners=np.roll(made.corners, turn, axis=0)))
    x, y = made.corners[0]
    assert unread.number is None and f"is the one given as {x:g} {y:g}" in unread.word


def test_mirrored_corners_are_said(archive):
    made = a_photograph()
    mirrored = made.corners[[0, 3, 2, 1]]
    record, = measure(archive.add("find.png", made.picture), Options(corners=mirrored, grid=made.grid))
    assert record.number != 0 or any("against the clock" in warning for warning in record.warnings)
    if record.number == 0:
        assert any("first, fourth, third, second" in warning for warning in record.warnings)
    sampled, = measure(archive.home / "find.png", Options(corners=mirrored))
    assert sampled.number != 0 or any("against the clock" in warning for warning in sampled.warnings)


def test_a_mirrored_photograph_is_said(archive):
    made = a_photograph()
    records = measure(archive.add("find.png", np.ascontiguousarray(np.fliplr(made.picture))))
    for record in records:
        assert record.number != 0 or any("against the clock" in warning for warning in record.warnings)


def test_a_grid_of_another_label_is_said(archive):
    made = a_photograph()
    record, = measure(archive.add("find.png", made.picture), Options(corners=made.corners, grid=modules_of("SOMETHING ELSE", 1)))
    assert any("another label" in warning for warning in record.warnings)


def test_corners_that_are_no_label_are_said(archive):
    record, = measure(archive.add("find.png", a_photograph().picture), Options(corners=np.array([[5., 5], [60, 5], [60, 60], [5, 60]])))
    assert record.number is None and "no label is to be read under these corners" in record.word


@pytest.mark.parametrize("corners, number", [
    (np.zeros((4, 2)), 8), (np.array([[1e9, 0], [2e9, 0], [2e9, 1e9], [1e9, 1e9]]), 5),
    (np.array([[5., 5], [60, 5], [60, 60], [5, 60]]), 9)])
def test_every_refusal_of_the_library_is_in_words(archive, corners, number):
    made = a_photograph()
    grid = archive.add("label.grid", "\n".join("".join(map(str, row)) for row in made.grid).encode())
    path = archive.add("find.png", made.picture)
    assert archive.measure(path, "--corners", *words(corners), "--grid", grid, "--side-mm", 20) == 1
    record = archive.record("find")
    assert record["number"] == number and record["corners"] is None and record["spread_px"] is None
    assert f"refused by {number}: {record['word']}" in archive.said
    assert archive.verify() == 0 and "Traceback" not in archive.said + archive.complained


def sharp() -> tuple:
    """A label of 24 pixels a module with hardly any blur: the plain refinement is wrong by more than a pixel there."""
    return render(Label("SHARP"), quad((330, 330), side=21 * 24, angle=7), (660, 660), blur=0.5, noise=2)


def test_a_label_too_sharp_for_its_size_is_smoothed(archive):
    made = sharp()
    assert archive.measure(archive.add("find.png", made.picture)) == 0
    record = archive.record("find")
    assert record["prepare"]["sigma_px"] == pytest.approx(0.12 * 24, abs=0.1)
    assert "the blanked copy is of the smoothed picture" in record["prepare"]["sentence"] and record["warnings"] == []
    assert distance(record["corners"], made.corners) < GOOD_PX and "smoothed by 2.8" in archive.said
    assert archive.verify() == 0


def test_a_label_too_sharp_and_not_smoothed_is_said(archive):
    made = sharp()
    path = archive.add("find.png", made.picture)
    assert archive.measure(path, "--prepare", "off") == 0
    record = archive.record("find")
    assert record["prepare"]["sigma_px"] == 0 and record["repeatable"] is False and record["spread_px"] > 0.1
    assert any(warning.startswith("Not repeatable") for warning in record["warnings"])
    assert any("too sharp for its size" in warning for warning in record["warnings"])
    assert "NOT REPEATABLE" in (archive.out / "summary.csv").read_text() and "Not repeatable" in archive.said
    assert archive.measure(path, "--prepare", "2.5") == 0
    assert archive.record("find")["prepare"]["sigma_px"] == 2.5
    assert distance(archive.record("find")["corners"], made.corners) < GOOD_PX


def test_the_overlay_shows_what_was_read_also_where_it_is_smaller(archive):
    made = render(Label("LARGE"), quad((700, 700), side=21 * 50, angle=7), (1400, 1400), blur=5, noise=2)
    assert archive.measure(archive.add("find.png", made.picture)) == 0
    overlay = archive.picture("find.overlay.png").astype(int)
    assert 900 <= overlay.shape[1] <= 901
    orange = (overlay[..., 2] - overlay[..., 0]) > 60
    assert orange[:900].sum() > 1000


@pytest.mark.parametrize("background", [20.0, 150.0, 250.0])
@pytest.mark.parametrize("quiet, said", [(0.5, True), (1.0, True), (2.0, False), (4.0, False)])
def test_a_label_without_its_bare_margin_is_said(quiet, said, background):
    made = render(Label("MARGIN", quiet=quiet), quad((180, 140), side=150, angle=8), SIZE, blur=1, noise=2, background=background)
    record = refine_picture(made.picture, made.corners, made.grid)
    assert record.number != 0 or any("no bare margin" in warning for warning in record.warnings) == said


def test_blur_alone_takes_no_margin_away():
    made = render(Label("MARGIN"), quad((60, 50), side=60, angle=8), (120, 100), blur=0.8, noise=2)
    record = refine_picture(made.picture, made.corners, made.grid)
    assert record.number == 0 and not any("margin" in warning for warning in record.warnings)


def test_a_label_too_blurred_is_said():
    made = a_photograph(blur=2.6)
    record = refine_picture(made.picture, made.corners, made.grid)
    assert any("too blurred for its size" in warning for warning in record.warnings)


@pytest.mark.parametrize("module, blur, smooth", [(6, 0.9, False), (10, 1.5, False), (16, 2.5, False), (16, 0.5, True), (24, 0.5, True)])
def test_the_rule_for_smoothing_follows_the_blur(module, blur, smooth):
    size = int(21 * module * 1.5)
    made = render(Label("RULE"), quad((size / 2, size / 2), side=21 * module, angle=11), (size, size), blur=blur, noise=2)
    sigma, _ = preparation(made.picture, Request(moved(made.corners, 0.1), made.grid), "auto")
    assert (sigma > 0) == smooth


def test_the_blur_is_measured():
    made = render(Label("BLUR"), quad((200, 200), side=21 * 12), (400, 400), blur=1.8, noise=2)
    assert edge_blur(made.picture, made.corners, made.grid, None) == pytest.approx(np.hypot(1.8, 0.5) / 12, abs=0.01)


def test_refine_picture_needs_no_file():
    made = a_photograph()
    record = refine_picture(made.picture, moved(made.corners, 0.25), made.grid)
    assert record.number == 0 and distance(record.corners, made.corners) < GOOD_PX
    assert record.marks.copy.shape == record.marks.sheet.shape == made.picture.shape
    assert refine_picture(made.picture, made.corners, made.grid, sigma=0.8).prepare["sigma_px"] == 0.8
    inverted = a_photograph(inverted=True)
    assert distance(refine_picture(inverted.picture, inverted.corners, inverted.grid, inverted=True).corners, inverted.corners) < GOOD_PX


def test_a_run_repeats_itself(measured):
    before = {path.name: path.read_bytes() for path in measured.out.iterdir()}
    assert measured.measure(measured.home / "find.png", "--side-mm", 20) == 0
    assert before == {path.name: path.read_bytes() for path in measured.out.iterdir()}


def test_nothing_is_half_written_where_the_directory_cannot_be_written(measured, monkeypatch):
    before = {path.name: path.read_bytes() for path in measured.out.iterdir()}
    import tool.record

    def full(*_):
        raise OSError(28, "No space left on device")
    monkeypatch.setattr(tool.record.os, "replace", full)
    with pytest.raises(OSError):
        tool.record.write_whole(measured.out / "find.json", b"other")
    monkeypatch.undo()
    assert before == {path.name: path.read_bytes() for path in measured.out.iterdir()}


@pytest.mark.parametrize("dim", [21, 25, 45, 77])
def test_the_grid_is_read_in_its_dimension(dim):
    size = dim * 6 + 100
    made = render(Label.of_dim(dim), quad((size / 2, size / 2), side=dim * 5, angle=12, tilt=10), (size, size), blur=0.9, noise=2)
    found, = decode(made.picture)
    reading = read_grid(made.picture, moved(made.corners, 0.2, dim), None, False)
    assert (reading.grid == made.grid).all() and reading.agreement >= PATTERN_AGREEMENT
    assert found.text == text_of(made.grid)
    assert pattern_agreement(made.grid) == 1.0 and (made.grid == fixed_patterns(dim)[1])[fixed_patterns(dim)[0]].all()


@pytest.mark.parametrize("darkest", [0.25, 0.5])
def test_a_label_in_uneven_light_is_read(archive, darkest):
    made = a_photograph(noise=0)
    light = np.linspace(darkest, 1.0, SIZE[0])[None, :]
    record, = measure(archive.add("find.png", np.rint(made.picture * light).astype(np.uint8)))
    assert record.number == 0 and ["".join(map(str, row)) for row in made.grid] == record.request["grid"]
    assert darkest < 0.5 or not any("margin" in warning for warning in record.warnings)


def test_a_worker_that_dies_is_said_and_the_rest_goes_on(archive, monkeypatch):
    photos = [archive.add(f"find{index}.png", a_photograph(f"FIND {index}").picture) for index in range(6)]
    measured = many.measure
    monkeypatch.setattr(many, "measure", lambda photo, options: os._exit(9) if photo.stem == "find2" else measured(photo, options))
    monkeypatch.setattr(many, "get_context", lambda _: multiprocessing.get_context("fork"))
    assert archive.measure(*photos, "--jobs", 2) == 1
    assert archive.said.count("FIND ") == 5 and archive.said.count("ended from outside") == 1
    assert archive.record("find2")["number"] is None and archive.record("find5")["number"] == 0


@pytest.mark.parametrize("taken", [0, 1, 2])
def test_a_task_that_a_broken_pool_refuses_is_not_lost(monkeypatch, taken):
    class Pool(Executor):
        """Workers that die before the task behind so many."""

        def __init__(self, jobs):
            self.left = taken if jobs > 1 else 1

        def submit(self, work, task):
            if self.left == 0:
                raise BrokenProcessPool
            self.left -= 1
            future: Future = Future()
            future.set_result(work(task))
            return future

    monkeypatch.setattr(many, "_pool", Pool)
    monkeypatch.setattr(many, "measured_and_written", lambda task: task)
    assert sorted(many._outcomes([1, 2, 3, 4, 5], 2)) == [1, 2, 3, 4, 5]


def test_a_mistake_in_the_tool_is_said_and_the_rest_goes_on(archive, monkeypatch):
    photos = [archive.add(f"find{index}.png", a_photograph().picture) for index in range(2)]
    measured = many.measure
    monkeypatch.setattr(many, "measure", lambda photo, options: 1 // 0 if photo.stem == "find0" else measured(photo, options))
    assert archive.measure(*photos, "--jobs", 1) == 1
    assert "a mistake in this tool (ZeroDivisionError" in archive.said and archive.record("find1")["number"] == 0


def test_work_in_parallel_gives_the_same_records(archive):
    photos = [archive.add(f"find{index}.png", a_photograph(f"FIND {index}").picture) for index in range(5)]
    photos.append(archive.add("damaged [1]*.jpg", encoded(a_photograph().picture, ".jpg")[:300]))
    assert archive.measure(*photos, "--jobs", 2) == 1
    lines = archive.said.splitlines()
    assert len(lines) == 6 and all(f"[{number}/6]" in archive.said for number in range(1, 7))
    parallel = {path.name: path.read_bytes() for path in archive.out.iterdir()}
    assert archive.measure(*photos, "--jobs", 1) == 1
    assert parallel == {path.name: path.read_bytes() for path in archive.out.iterdir()}
