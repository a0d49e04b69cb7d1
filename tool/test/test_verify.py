"""Verifying: the published files as they are, and every way in which they can be changed."""
from __future__ import annotations

import json
import shutil

import cv2
import numpy as np
import pytest
from rendered import a_photograph, encoded, exif_block, png_with_chunk, two_labels


def refused(archive, words: str) -> None:
    """Demands that verify refuses, in these words."""
    assert archive.verify() == 1
    assert "DIFFERS" in archive.said and words in archive.said, archive.said
    assert "Traceback" not in archive.said + archive.complained


def change(archive, edit) -> None:
    """Changes the record of the one photograph."""
    path = archive.out / "find.json"
    fields = json.loads(path.read_text())
    edit(fields)
    path.write_text(json.dumps(fields))


def test_what_was_published_is_the_same(measured):
    (measured.home / "find.png").unlink()
    (measured.out / "find.overlay.png").unlink()
    assert measured.verify() == 0
    assert measured.said == f"{measured.out / 'find.json'}: the same corners, sheet and copy\n"


def test_every_record_is_verified(measured):
    measured.measure(measured.add("two.png", two_labels()[0]), measured.home / "none.png")
    assert measured.verify() == 0
    assert measured.said.count("the same corners") == 3 and measured.said.count("no copy to verify") == 1


def test_a_jpeg_under_the_name_of_a_png(measured):
    copy = measured.picture("find.blanked.png")
    (measured.out / "find.blanked.png").write_bytes(encoded(copy, ".jpg"))
    refused(measured, "is not a PNG but a JPEG under that name")


def test_a_copy_that_was_a_jpeg(measured):
    copy = measured.picture("find.blanked.png")
    through = cv2.imdecode(np.frombuffer(encoded(copy, ".jpg"), np.uint8), cv2.IMREAD_GRAYSCALE)
    (measured.out / "find.blanked.png").write_bytes(encoded(through, ".png"))
    refused(measured, "that the sheet does not mark as read")


def test_a_scaled_copy(measured):
    copy = measured.picture("find.blanked.png")
    (measured.out / "find.blanked.png").write_bytes(encoded(cv2.resize(copy, None, fx=0.5, fy=0.5), ".png"))
    refused(measured, "has 180 by 140 pixels, and the photograph had 360 by 280")


def test_a_colour_copy_and_one_of_16_bits(measured):
    copy = measured.picture("find.blanked.png")
    (measured.out / "find.blanked.png").write_bytes(encoded(cv2.cvtColor(copy, cv2.COLOR_GRAY2BGR), ".png"))
    refused(measured, "is colour of 8 bits, not grey of 8")
    (measured.out / "find.blanked.png").write_bytes(encoded(copy.astype(np.uint16), ".png"))
    refused(measured, "is grey of 16 bits")


def test_files_packed_anew_without_loss_are_the_same(measured):
    sheet, copy = measured.picture("find.sheet.png"), measured.picture("find.blanked.png")
    (measured.out / "find.sheet.png").write_bytes(encoded(sheet, ".png", cv2.IMWRITE_PNG_BILEVEL, 1))
    (measured.out / "find.blanked.png").write_bytes(encoded(copy, ".png", cv2.IMWRITE_PNG_COMPRESSION, 9))
    assert measured.verify() == 0


def test_a_changed_pixel_that_was_read(measured):
    copy = measured.picture("find.blanked.png")
    row, column = np.argwhere(measured.picture("find.sheet.png"))[100]
    copy[row, column] ^= 1
    (measured.out / "find.blanked.png").write_bytes(encoded(copy, ".png"))
    refused(measured, "a pixel of the copy was changed")


def test_a_pixel_that_was_not_painted_over(measured):
    copy = measured.picture("find.blanked.png")
    copy[2, 3] = 90
    (measured.out / "find.blanked.png").write_bytes(encoded(copy, ".png"))
    refused(measured, "the copy shows 1 pixel that the sheet does not mark")


def test_the_photograph_itself_instead_of_the_copy(measured):
    shutil.copy(measured.home / "find.png", measured.out / "find.blanked.png")
    refused(measured, "that the sheet does not mark as read")


@pytest.mark.parametrize("value, words", [(0, "the sheet was changed"), (7, "neither 0 nor 255")])
def test_a_changed_sheet(measured, value, words):
    sheet, copy = measured.picture("find.sheet.png"), measured.picture("find.blanked.png")
    row, column = np.argwhere(copy == 0)[50]
    sheet[row, column] = value or 255
    (measured.out / "find.sheet.png").write_bytes(encoded(sheet, ".png"))
    refused(measured, words)


def test_a_copy_and_a_sheet_changed_together_with_their_hashes(measured):
    from tool.record import sha256_of_pixels
    sheet, copy = measured.picture("find.sheet.png"), measured.picture("find.blanked.png")
    sheet[2, 3], copy[2, 3] = 255, 90
    for name, pixels in (("sheet", sheet), ("blanked", copy)):
        (measured.out / f"find.{name}.png").write_bytes(encoded(pixels, ".png"))
    change(measured, lambda fields: fields.update(copy_sha256=sha256_of_pixels(copy), sheet_sha256=sha256_of_pixels(sheet // 255)))
    refused(measured, "marks another sheet: 1 pixel differ; the corners stay the same\n")
    change(measured, lambda fields: fields["versions"].update(library_archive_sha256="5c91"))
    refused(measured, "1 pixel differ; the corners stay the same; it was measured with another library, of archive 5c91\n")


def changed_pair(part: str | None, bits: bool):
    """An edit that moves the first corner of a part, with or without its bits."""
    from tool.record import bits_of

    def edit(fields):
        holder = fields if part is None else fields[part]
        holder["corners"][0][0] += 0.01
        if bits:
            holder["corners_bits"][0][0] = bits_of(holder["corners"][0][0])
        if part == "request":
            fields["rough"] = holder["corners"]
    return edit


@pytest.mark.parametrize("part, bits, words", [
    (None, False, "a corner of the record was changed"), ("answer", False, "a corner of the answer was changed"),
    ("answer", True, "gives other corners"), ("request", False, "a rough corner of the request was changed"),
    ("request", True, "marks another sheet")])
def test_a_changed_corner(measured, part, bits, words):
    if part == "request" and bits:
        change(measured, lambda fields: [changed_pair(part, bits)(fields) for _ in range(200)])
    else:
        change(measured, changed_pair(part, bits))
    refused(measured, words)


@pytest.mark.parametrize("edit, words", [
    (lambda f: f.update(number=9), "not in 9"),
    (lambda f: f.update(word="fine"), "words are not those of number 0"),
    (lambda f: f.update(refined=[True, True, True, False]), "other corners were refined"),
    (lambda f: f.update(read=3), "and the record says 3"),
    (lambda f: f["answer"]["edges"][0].update(fit=1), "other edge points"),
    (lambda f: f["px_per_mm"].__setitem__(0, 1.0), "pixels per millimetre"),
    (lambda f: f.update(side_mm=25.0), "pixels per millimetre"),
    (lambda f: f.update(side_mm=None), "without the label's side"),
    (lambda f: f.update(px_per_mm=None), "without the label's side"),
    (lambda f: f["rough"][0].__setitem__(0, 1.0), "a rough corner was changed"),
    (lambda f: f["request"].update(inverted=True), "DIFFERS"),
    (lambda f: f["request"]["grid"].__setitem__(0, "1" * 21), "DIFFERS"),
    (lambda f: f.update(files=None), "names no copy"),
    (lambda f: f.update(request=None), "no request and answer"),
    (lambda f: f.update(corners=None), "a corner of the record was changed"),
    (lambda f: f["files"].update(blanked="other.png"), "other.png is not there")])
def test_a_changed_record(measured, edit, words):
    change(measured, edit)
    refused(measured, words)


@pytest.mark.parametrize("edit, words", [
    (lambda f: f.pop("answer"), "it has no 'answer'"),
    (lambda f: f.update(number="0"), "'number' is not"),
    (lambda f: f.update(corners=[1, 2]), "'corners' is not four pairs"),
    (lambda f: f.update(refined=5), "'refined' is not"),
    (lambda f: f.update(spread_px=10 ** 400), "'spread_px' is not"),
    (lambda f: f.update(warnings="none"), "'warnings' is not"),
    (lambda f: f.update(read=True), "'read' is not"),
    (lambda f: f.update(request=[]), "'request' is not"),
    (lambda f: f["request"].update(grid=["01", "2"]), "'request' is not"),
    (lambda f: f["request"].update(width=10 ** 9), "'request' is not"),
    (lambda f: f["request"].update(stride=1), "'request' is not"),
    (lambda f: f["request"].update(camera={"source": 1}), "'request' is not"),
    (lambda f: f["answer"].update(corners=None), "'answer' is not"),
    (lambda f: f["answer"]["corners"][0].__setitem__(0, 10 ** 400), "'answer' is not"),
    (lambda f: f["files"].update(blanked="../find.png"), "'files' is not names of files beside it")])
def test_a_record_of_another_shape(measured, edit, words):
    change(measured, edit)
    refused(measured, words)


def test_a_changed_camera(measured):
    def edit(fields):
        fields["request"]["camera"] = {"source": dict(fx=1.0, fy=1.0, cx=0.0, cy=0.0), "rectified": dict(fx=1.0, fy=1.0, cx=0.0, cy=0.0),
                                       "lens": None, "bits": {}}
    change(measured, edit)
    refused(measured, "the camera of the request was changed")


@pytest.mark.parametrize("text, words", [("", "it is not JSON"), ("{\"number\": 0", "it is not JSON"), ("[]", "not a record of this tool"),
                                         ("{}", "it has no 'number'"), ("[" * 100000, "it is not JSON"), ("nul\0", "it is not JSON")],
                         ids=["empty", "cut", "list", "other", "deep", "nul"])
def test_a_damaged_json(measured, text, words):
    (measured.out / "find.json").write_text(text)
    refused(measured, words)
    assert measured.measure(measured.add("other.png", a_photograph("OTHER").picture)) == 0
    assert "damaged" in (measured.out / "summary.csv").read_text()


def test_missing_files(measured):
    (measured.out / "find.sheet.png").unlink()
    refused(measured, "the sheet find.sheet.png is not there")
    (measured.out / "find.blanked.png").unlink()
    refused(measured, "the blanked copy find.blanked.png is not there")


@pytest.mark.parametrize("kind", [b"tEXt", b"eXIf"])
def test_a_copy_with_metadata(measured, kind):
    path = measured.out / "find.blanked.png"
    path.write_bytes(png_with_chunk(path.read_bytes(), kind, exif_block(1)))
    refused(measured, f"carries metadata ({kind.decode()})")


@pytest.mark.parametrize("edit", [lambda data: data + b"the photograph", lambda data: data[:-20], lambda data: data[:200],
                                  lambda data: data[:60] + bytes([data[60] ^ 1]) + data[61:]])
def test_a_damaged_copy_or_one_with_something_behind_it(measured, edit):
    path = measured.out / "find.blanked.png"
    path.write_bytes(edit(path.read_bytes()))
    refused(measured, "is damaged")


def test_a_copy_of_random_bytes(measured):
    (measured.out / "find.blanked.png").write_bytes(b"\x89PNG\r\n\x1a\n" + bytes(40))
    refused(measured, "is damaged")
    (measured.out / "find.blanked.png").write_bytes(b"no picture")
    refused(measured, "is not a PNG")


def test_one_that_differs_does_not_hide_the_others(measured):
    measured.measure(measured.add("other.png", a_photograph("OTHER").picture))
    (measured.out / "find.blanked.png").unlink()
    refused(measured, "find.json: DIFFERS")
    assert "other.json: the same corners" in measured.said


def test_a_directory_without_records_is_bad_usage(archive):
    archive.out.mkdir()
    assert archive.verify() == 2 and "nothing to verify" in archive.complained
    assert archive.run("verify", archive.home / "none") == 2 and "is not a directory" in archive.complained
