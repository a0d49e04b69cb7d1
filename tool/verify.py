"""Verifying: the refinement run again over each published copy, alone, and compared with what was published."""
from __future__ import annotations

import struct
from dataclasses import asdict
from pathlib import Path
from typing import Any

import numpy as np
from trufolmesca import Number, Refused, archive_sha256, word_of

from tool import Unanswered, printable
from tool.published import Differs, camera_of, read_fields, read_published
from tool.record import bits_of, bits_of_corners, camera_as_json, settings_as_json, sha256_of_pixels
from tool.refinement import Run, in_photograph, px_per_mm, run_marking
from tool.settings import recorded_settings

SAME = "the same corners, sheet and copy"
NOTHING = "refused when it was measured, so there is no copy to verify"


def verify_directory(directory: Path) -> bool:
    """Verifies every record of a directory, says a line of each, and whether all are the same."""
    records = sorted(directory.glob("*.json"))
    if not records:
        raise Unanswered(f"{directory} has no NAME.json: there is nothing to verify")
    all_same = True
    for path in records:
        try:
            verdict = verify_record(path)
        except Differs as difference:
            verdict, all_same = f"DIFFERS: {difference}", False
        print(f"{printable(str(path))}: {verdict}", flush=True)
    return all_same


def verify_record(path: Path) -> str:
    """Verifies one record and gives a sentence; Differs where anything is not as published."""
    fields = read_fields(path)
    if fields["files"] is None:
        return _without_copy(fields)
    copy = read_published(path.parent / _file_name(fields, "blanked"), "blanked copy", fields["request"])
    sheet = read_published(path.parent / _file_name(fields, "sheet"), "sheet", fields["request"])
    run = _run_again(fields, copy)
    _compare_pixels(fields, copy, sheet, run)
    _compare_answer(fields, run)
    _compare_said(fields, run)
    return SAME if fields["number"] == Number.ANSWER else f"the same refusal by {fields['number']}, sheet and copy"


def _without_copy(fields: dict[str, Any]) -> str:
    """The verdict on a record that claims nothing."""
    if fields["number"] == Number.ANSWER or fields["corners"] is not None:
        raise Differs("it has corners, but names no copy that they rest on")
    return f"{NOTHING} ({fields['word']})"


def _file_name(fields: dict[str, Any], kind: str) -> str:
    """The name of a published picture."""
    if fields["request"] is None or fields["answer"] is None:
        raise Differs("the file is damaged: it names a copy, but no request and answer")
    return fields["files"][kind]


def _value_of(bits: str) -> float:
    """The double that has these bits."""
    return struct.unpack(">d", bytes.fromhex(bits))[0]


def _run_again(fields: dict[str, Any], copy: np.ndarray) -> Run:
    """The refinement of the record's request over the copy, and nothing else."""
    request = fields["request"]
    for pair, bits in zip(request["corners"], request["corners_bits"]):
        if [bits_of(float(value)) for value in pair] != bits:
            raise Differs("a rough corner of the request was changed: its decimals and its bits are not the same number")
    grid = np.array([[int(module) for module in row] for row in request["grid"]], np.uint8)
    corners = [[_value_of(bits) for bits in pair] for pair in request["corners_bits"]]
    camera = camera_of(request["camera"])
    if camera_as_json(camera) != request["camera"]:
        raise Differs("the camera of the request was changed: its decimals and its bits are not the same numbers")
    if camera is None and fields["rough"] != request["corners"]:
        raise Differs("a rough corner was changed: it is not the one of the request")
    settings = recorded_settings(request)
    if settings is not None and settings_as_json(settings) != request["settings"]:
        raise Differs("a setting of the request was changed: its decimals and its bits are not the same number")
    return run_marking(copy, grid, corners, request["inverted"], camera, settings)


def _compare_pixels(fields: dict[str, Any], copy: np.ndarray, sheet: np.ndarray, run: Run) -> None:
    """Compares copy and sheet with those of the run, and with their hashes."""
    odd = int(((sheet != 0) & (sheet != 255)).sum())
    if odd:
        raise Differs(f"the sheet has {odd} pixels that are neither 0 nor 255")
    beside = int(((copy != 0) & (sheet == 0)).sum())
    if beside:
        raise Differs(f"the copy shows {_pixels(beside)} that the sheet does not mark as read")
    if sha256_of_pixels(copy) != fields["copy_sha256"]:
        raise Differs(f"a pixel of the copy was changed: its pixels are not those whose hash was published{_effect(fields, run)}")
    if run.marks is None:
        raise Differs(f"the run over the copy is refused by {run.number}: {run.word}")
    if sha256_of_pixels(sheet // 255) != fields["sheet_sha256"]:
        raise Differs("the sheet was changed: its pixels are not those whose hash was published")
    wrong = int((run.marks.sheet != sheet // 255).sum())
    if wrong:
        raise Differs(f"the run over the copy marks another sheet: {_pixels(wrong)} differ{_effect(fields, run)}{_library(fields)}")
    wrong = int((run.marks.copy != copy).sum())
    if wrong:
        raise Differs(f"the run over the copy leaves another copy: {_pixels(wrong)} differ")


def _pixels(count: int) -> str:
    """So many pixels."""
    return f"{count} pixel" + ("" if count == 1 else "s")


def _effect(fields: dict[str, Any], run: Run) -> str:
    """How far a run over this copy is from the published answer."""
    if run.number != fields["number"]:
        return f"; a run over it ends in {run.number} ({run.word}), not in {fields['number']}"
    moved = float(np.abs(run.answer.corners - np.array(fields["answer"]["corners"])).max())
    return f"; a run over it moves a corner by {moved:.3g} pixel" if moved else "; the corners stay the same"


def _library(fields: dict[str, Any]) -> str:
    """What to add where the record was made with another library, which may have read other pixels."""
    made_with, here = fields["versions"].get("library_archive_sha256"), archive_sha256()
    known = made_with is not None and here is not None
    return f"; it was measured with another library, of archive {printable(str(made_with))}" if known and made_with != here else ""


def _compare_answer(fields: dict[str, Any], run: Run) -> None:
    """Compares the run's number, corners and counts with those published, to the last bit."""
    published = fields["answer"]
    if run.number != fields["number"]:
        raise Differs(f"the run over the copy ends in {run.number} ({run.word}), not in {fields['number']}")
    if bits_of_corners(run.answer.corners) != published["corners_bits"]:
        moved = float(np.abs(run.answer.corners - [[_value_of(bits) for bits in pair] for pair in published["corners_bits"]]).max())
        raise Differs(f"the run over the copy gives other corners: one differs by {moved:.3g} pixel")
    if bits_of_corners(np.array(published["corners"], float)) != published["corners_bits"]:
        raise Differs("a corner of the answer was changed: its decimals and its bits are not the same number")
    if [asdict(edge) for edge in run.answer.edges] != published["edges"]:
        raise Differs("the run over the copy counts other edge points")
    if int(run.marks.sheet.sum()) != fields["read"]:
        raise Differs(f"{int(run.marks.sheet.sum())} pixels were read, and the record says {fields['read']}")


def _compare_said(fields: dict[str, Any], run: Run) -> None:
    """Compares what the record says first with what follows from the run: corners in the photograph, flags, scale."""
    if fields["word"] != word_of(fields["number"]):
        raise Differs(f"the record's words are not those of number {fields['number']}: {word_of(fields['number'])}")
    if run.number != Number.ANSWER:
        if fields["corners"] is not None:
            raise Differs("the record has corners, and the run over the copy is refused")
        return
    if fields["refined"] != list(run.answer.refined):
        raise Differs("the record says that other corners were refined than the run over the copy")
    try:
        places = in_photograph(camera_of(fields["request"]["camera"]), run.answer.corners)
    except Refused as refusal:
        raise Differs(f"a corner has no place in the photograph: {refusal.word}") from None
    if fields["corners"] is None or bits_of_corners(np.array(fields["corners"], float)) != bits_of_corners(places):
        raise Differs("a corner of the record was changed: it is not the answer's")
    if fields["px_per_mm"] is not None or fields["side_mm"] is not None:
        _compare_scale(fields, places)


def _compare_scale(fields: dict[str, Any], places: np.ndarray) -> None:
    """Compares the pixels per millimetre with the corners and the label's side."""
    if not fields["side_mm"] or not fields["px_per_mm"]:
        raise Differs("the record has pixels per millimetre without the label's side, or the other way round")
    if not np.allclose(px_per_mm(places, fields["side_mm"]), fields["px_per_mm"], rtol=1e-12, atol=0):
        raise Differs("the pixels per millimetre do not follow from the corners and the label's side")
