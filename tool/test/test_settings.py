"""Measuring settings: the file, what is said where it is wrong, the record, verifying, and the report."""
from __future__ import annotations

import json
import math
from dataclasses import asdict, replace

import numpy as np
import pytest
import trufolmesca
from rendered import a_photograph
from test_camera import CAMERA, bent_photograph
from trufolmesca import Number, Refused, Settings

from tool import Unanswered, measure
from tool.measure import Options, refine_picture
from tool.record import bits_of
from tool.settings import RANGES, other_than_defaults, read_settings

GLOSSY = {"probe_fraction_second": 0.65, "max_points_per_edge": 8, "contrast_floor": 20, "outlier_median_multiplier": 3.0, "rounds": 3}
WRONG_FILES = [
    (b"", "is not JSON: it goes wrong in line 1, column 1"), (b'{\n  "rounds": 3,\n}', "is not JSON: it goes wrong in line 3, column 1"),
    (b"\xff\xfe\xff", "is not JSON"), (b"[" * 100000, "is not JSON"),
    (b'{"rounds": 3} {}', "is not JSON: it goes wrong in line 1, column 15"),
    (b"[]", 'it is not an object of names and numbers, such as {"contrast_floor": 6}'), (b"3", "it is not an object"),
    (b'{"round": 3}', "'round' is not a setting; the settings are probe_fraction_first, probe_fraction_second, edge_margin_modules, "),
    (b'{"Rounds": 3}', "'Rounds' is not a setting"), (b'{"\\u001b[31m": 1}', "'?[31m' is not a setting"),
    (b'{"bits": {}}', "'bits' is not a setting"),
    (b'{"rounds": 3, "rounds": 3}', "'rounds' stands there twice"), (b'{"rounds": {"a": 1, "a": 2}}', "'a' stands there twice"),
    (b'{"rounds": "3"}', "rounds is a text, and must be a whole number from 1 to 4"), (b'{"rounds": true}', "rounds is true, and must be"),
    (b'{"rounds": null}', "rounds is null, and must be"), (b'{"rounds": [3]}', "rounds is a list, and must be"),
    (b'{"contrast_floor": {}}', "contrast_floor is an object, and must be a whole number from 1 to 255"),
    (b'{"rounds": 5}', "rounds is 5, and must be a whole number from 1 to 4"), (b'{"rounds": -0}', "rounds is -0, and must be"),
    (b'{"rounds": 2.5}', "rounds is 2.5, and must be a whole number"),
    (b'{"max_points_per_edge": 355}', "max_points_per_edge is 355, and must be a whole number from 1 to 354"),
    (b'{"min_edge_points": 1}', "min_edge_points is 1, and must be a whole number from 2 to 354"),
    (b'{"probe_fraction_first": 1.0000000000000002}', "probe_fraction_first is 1.0000000000000002, and must be a number from 0 to 1"),
    (b'{"edge_margin_modules": 0.5}', "edge_margin_modules is 0.5, and must be a number from 1 to 10"),
    (b'{"outlier_floor_modules": -5e-324}', "outlier_floor_modules is -5e-324, and must be a number from 0 to 100"),
    (b'{"outlier_median_multiplier": 1e999}', "outlier_median_multiplier is not a finite number, and must be a number from 0 to 100"),
    (b'{"outlier_median_multiplier": NaN}', "outlier_median_multiplier is not a finite number"),
    (b'{"rounds": -Infinity}', "rounds is not a finite number"), (b'{"rounds": ' + b"9" * 5000 + b"}", "rounds is not a finite number")]


@pytest.fixture(name="glossy")
def fixture_glossy(archive):
    """An archive with one photograph, measured under other settings."""
    path = archive.add("glossy.json", json.dumps(GLOSSY).encode())
    assert archive.measure(archive.add("find.png", a_photograph().picture), "--settings", path) == 0
    return archive


def change(archive, edit) -> None:
    """Changes the settings in the record of the one photograph."""
    path = archive.out / "find.json"
    fields = json.loads(path.read_text())
    edit(fields["request"])
    path.write_text(json.dumps(fields))


def refused(archive, words: str) -> None:
    """Demands that verify refuses, in these words."""
    assert archive.verify() == 1
    assert "DIFFERS: " in archive.said and words in archive.said and "Traceback" not in archive.said + archive.complained, archive.said


# ---- the file


def test_a_file_names_settings_and_the_others_are_the_defaults(tmp_path):
    path = tmp_path / "settings.json"
    for text, settings in ((json.dumps(GLOSSY), replace(Settings(), **GLOSSY)), ("{}", Settings()),
                           (json.dumps(asdict(Settings())), Settings()),
                           ('{"rounds": 3.0, "contrast_floor": 2e1}', Settings(contrast_floor=20, rounds=3)),
                           ('{"probe_fraction_first": -0}', Settings(-0.0))):
        for encoding in ("utf-8", "utf-8-sig", "utf-16"):
            path.write_bytes(text.encode(encoding))
            read = read_settings(path)
            assert read == settings
            assert [type(value) for value in asdict(read).values()] == [int if range_.whole else float for range_ in RANGES.values()]
    assert math.copysign(1.0, read.probe_fraction_first) == -1.0


@pytest.mark.parametrize("contents, said", WRONG_FILES, ids=lambda value: value[:40] if isinstance(value, bytes) else "")
def test_what_is_wrong_with_a_file_is_said_before_anything_is_written(archive, contents, said):
    path = archive.add("wrong.json", contents)
    assert archive.measure(archive.add("find.png", a_photograph().picture), "--settings", path) == 2
    assert archive.complained.startswith(f"trufolmesca: the settings file {path}") and said in archive.complained, archive.complained
    assert archive.complained.count("\n") == 1 and "Traceback" not in archive.complained and not archive.out.exists()


def test_a_file_that_cannot_be_read_is_said(archive):
    for path, why in ((archive.home / "none.json", "no such file or directory"), (archive.home, "is a directory")):
        assert archive.measure("find.png", "--settings", path) == 2
        assert archive.complained == f"trufolmesca: the settings file {path} cannot be read: {why}\n"


@pytest.mark.parametrize("name", RANGES)
def test_the_ranges_are_those_of_the_library(tmp_path, name):
    made, range_ = a_photograph(), RANGES[name]
    path = tmp_path / "settings.json"
    low, high = float(range_.low), float(range_.high)
    beside = [low + 0.5] if range_.whole else []
    for value in (low, high, np.nextafter(low, -1.0), np.nextafter(high, 1e9), np.nextafter(low, 1e9), np.nextafter(high, -1.0), *beside):
        path.write_text(json.dumps({name: float(value)}))
        try:
            number = measure.refine_picture(made.picture, made.corners, made.grid, settings=replace(Settings(), **{name: value})).number
        except Refused as refusal:
            number = refusal.number
        try:
            taken = read_settings(path)
        except Unanswered:
            taken = None
        assert (taken is None) == (number == Number.SETTINGS), value


# ---- measuring


def test_settings_measure_and_are_recorded(glossy):
    record = glossy.record("find")
    assert record["repeatable"] is True and all(4 < edge["probed"] <= 8 for edge in record["answer"]["edges"])
    settings = record["request"]["settings"]
    bits = settings.pop("bits")
    assert settings == asdict(replace(Settings(), **GLOSSY)) and list(settings) == list(RANGES) == list(bits)
    assert bits == {name: bits_of(value) for name, value in settings.items()}
    assert glossy.verify() == 0 and "the same corners, sheet and copy" in glossy.said


def test_the_defaults_are_recorded_too_and_naming_none_is_the_same(measured):
    settings = measured.record("find")["request"]["settings"]
    assert {name: value for name, value in settings.items() if name != "bits"} == asdict(Settings())
    before = {path.name: path.read_bytes() for path in measured.out.iterdir()}
    for contents in (b"{}", json.dumps(asdict(Settings())).encode()):
        assert measured.measure(measured.home / "find.png", "--side-mm", 20, "--settings", measured.add("settings.json", contents)) == 0
        assert before == {path.name: path.read_bytes() for path in measured.out.iterdir()}


@pytest.mark.parametrize("way", ["decoder", "corners", "grid", "inverted", "camera"])
def test_every_way_to_a_label_takes_the_settings(archive, way):
    settings = Settings(max_points_per_edge=5, min_edge_points=3)
    made = bent_photograph() if way == "camera" else a_photograph(inverted=way == "inverted")
    options = Options(corners=made.corners if way in ("corners", "grid") else None, grid=made.grid if way == "grid" else None,
                      camera=CAMERA if way == "camera" else None, settings=settings)
    record, = measure.measure(archive.add("find.png", made.picture), options)
    assert record.number == 0 and all(3 <= edge["probed"] <= 5 for edge in record.answer["edges"])


def test_all_runs_of_a_label_go_by_the_same_settings(monkeypatch):
    used = []
    for name in ("refine", "run_marking"):
        call = getattr(measure, name)
        monkeypatch.setattr(measure, name, lambda *words, call=call: used.append(words[-1]) or call(*words))
    made, settings = a_photograph(), Settings(rounds=3)
    assert refine_picture(made.picture, made.corners, made.grid, settings=settings).number == 0
    assert used == [settings] * (1 + measure.REPEATED_RUNS)
    assert refine_picture(made.picture, made.corners, made.grid).number == 0 and used[5:] == [None] * 5


def test_settings_under_which_no_side_is_found_are_a_refusal_that_verifies(archive):
    path = archive.add("blind.json", b'{"contrast_floor": 255}')
    assert archive.measure(archive.add("find.png", a_photograph().picture), "--settings", path) == 1
    assert archive.record("find")["number"] == Number.THIN and archive.record("find")["request"]["settings"]["contrast_floor"] == 255
    assert archive.verify() == 0 and "the same refusal by 9" in archive.said


# ---- verifying


def test_a_record_of_before_there_were_settings_verifies_by_the_defaults(measured):
    change(measured, lambda request: request.pop("settings"))
    assert measured.verify() == 0


def one_round(request: dict) -> None:
    """An edit to another setting, decimals and bits."""
    request["settings"]["rounds"], request["settings"]["bits"]["rounds"] = 1, bits_of(1)


def test_other_settings_than_those_that_measured_differ(glossy):
    before = (glossy.out / "find.json").read_bytes()
    change(glossy, lambda request: request.pop("settings"))
    refused(glossy, "the run over the copy marks another sheet")
    (glossy.out / "find.json").write_bytes(before)
    change(glossy, one_round)
    refused(glossy, "the run over the copy marks another sheet")


@pytest.mark.parametrize("edit, words", [
    (lambda r: r.update(settings=None), "the file is damaged in its settings: it is not an object of names and numbers"),
    (lambda r: r.update(settings=[0.35] * 9), "the file is damaged in its settings: it is not an object"),
    (lambda r: r.update(settings={}), "the file is damaged in its settings: probe_fraction_first is missing"),
    (lambda r: r["settings"].pop("rounds"), "the file is damaged in its settings: rounds is missing"),
    (lambda r: r["settings"].update(round=2), "the file is damaged in its settings: 'round' is not a setting"),
    (lambda r: r["settings"].update(rounds=9), "the file is damaged in its settings: rounds is 9, and must be a whole number from 1 to 4"),
    (lambda r: r["settings"].update(rounds=10 ** 400), "the file is damaged in its settings: rounds is 1000"),
    (lambda r: r["settings"].update(rounds="2"), "the file is damaged in its settings: rounds is a text"),
    (lambda r: r["settings"].update(rounds=True), "the file is damaged in its settings: rounds is true, and must be"),
    (lambda r: r["settings"].update(edge_margin_modules=float("nan")), "edge_margin_modules is not a finite number"),
    (lambda r: r["settings"].update(rounds=3), "a setting of the request was changed: its decimals and its bits are not the same number"),
    (lambda r: r["settings"].update(probe_fraction_first=0.35000000000000003), "a setting of the request was changed"),
    (lambda r: r["settings"]["bits"].update(rounds=bits_of(3)), "a setting of the request was changed"),
    (lambda r: r["settings"]["bits"].pop("rounds"), "a setting of the request was changed"),
    (lambda r: r["settings"].update(bits=7), "a setting of the request was changed"),
    (lambda r: r["settings"].pop("bits"), "a setting of the request was changed")])
def test_a_record_whose_settings_are_damaged(measured, edit, words):
    change(measured, edit)
    refused(measured, words)
    damaged = "the file is damaged in its settings" in measured.said
    assert measured.run("report", measured.out) == 0
    assert ("this file is damaged" in (measured.out / "summary.csv").read_text()) == damaged
    assert ("The record&#39;s settings are damaged: " in (measured.out / "index.html").read_text()) == damaged


# ---- the report


def test_the_report_shows_settings_that_are_not_the_defaults(glossy):
    assert glossy.run("report", glossy.out) == 0
    shown = other_than_defaults(replace(Settings(), **GLOSSY))
    assert shown == ("probe_fraction_second 0.65 instead of 0.7, max_points_per_edge 8 instead of 64, contrast_floor 20 instead of 12, "
                     "outlier_median_multiplier 3.0 instead of 2.0, rounds 3 instead of 2")
    assert shown in (glossy.out / "index.html").read_text()


def test_the_report_names_no_settings_where_they_are_the_defaults(measured):
    assert measured.run("report", measured.out) == 0 and "instead of" not in (measured.out / "index.html").read_text()
    change(measured, lambda request: request.pop("settings"))
    assert measured.run("report", measured.out) == 0 and "settings:" not in (measured.out / "index.html").read_text()
