"""Reading photographs: every format and depth gives the same label, and what cannot be read is said."""
from __future__ import annotations

import cv2
import numpy as np
import pytest
from rendered import (GOOD_PX, a_photograph, distance, encoded, exif_block, jpeg_with_exif, png_with_chunk)

from tool import Unanswered
from tool.measure import Options, measure
from tool.photograph import ALPHA_SENTENCE, DEPTH_SENTENCE, FLOAT_SENTENCE, GREY_SENTENCE, read_photograph


def colour_of(grey: np.ndarray) -> np.ndarray:
    """A grey picture tinted, so that its channels differ."""
    return np.dstack([grey // 2 + 20, grey, np.clip(grey.astype(int) + 20, 0, 255).astype(np.uint8)])


@pytest.mark.parametrize("suffix, options", [
    (".png", ()), (".jpg", (cv2.IMWRITE_JPEG_QUALITY, 95)), (".tif", ()), (".bmp", ()), (".webp", (cv2.IMWRITE_WEBP_QUALITY, 101)),
    (".jp2", ()), (".ppm", ())])
def test_every_format_in_colour_gives_the_corners(archive, suffix, options):
    made = a_photograph()
    path = archive.add(f"find{suffix}", encoded(colour_of(made.picture), suffix, *options))
    record, = measure(path)
    assert distance(record.corners, made.corners) < GOOD_PX
    assert GREY_SENTENCE in record.prepare["sentence"]


def test_grey_is_taken_as_it_is(archive):
    made = a_photograph()
    photograph = read_photograph(archive.add("find.png", made.picture))
    assert (photograph.grey == made.picture).all() and photograph.conversions == () and photograph.name == "find.png"


def test_of_several_pages_the_first_is_measured_and_that_is_said(archive):
    made = a_photograph()
    path = archive.home / "find.tif"
    cv2.imwritemulti(str(path), [made.picture, np.full_like(made.picture, 200)])
    record, = measure(path)
    assert distance(record.corners, made.corners) < GOOD_PX
    assert record.warnings == ["The file holds 2 pictures, of which the first was measured."]


@pytest.mark.parametrize("suffix", [".png", ".tif"])
def test_sixteen_bits_are_divided_by_257(archive, suffix):
    made = a_photograph()
    fine = made.picture.astype(np.uint16) * 257
    fine[0, :4] = (128, 129, 65535 - 129, 65535)
    photograph = read_photograph(archive.add(f"find{suffix}", fine))
    assert photograph.grey[0, :4].tolist() == [0, 1, 254, 255]
    assert (photograph.grey[1:] == made.picture[1:]).all() and photograph.conversions == (DEPTH_SENTENCE,)
    colour = read_photograph(archive.add(f"colour{suffix}", np.dstack([fine] * 3)))
    assert colour.conversions == (GREY_SENTENCE, DEPTH_SENTENCE) and (colour.grey[1:] == made.picture[1:]).all()


def test_fractions_are_brought_to_eight_bits(archive):
    made = a_photograph()
    photograph = read_photograph(archive.add("find.tif", made.picture.astype(np.float32) / 255))
    assert (photograph.grey == made.picture).all() and photograph.conversions == (FLOAT_SENTENCE,)
    with pytest.raises(Unanswered, match="float32"):
        read_photograph(archive.add("nan.tif", np.full((9, 9), np.nan, np.float32)))


@pytest.mark.parametrize("depth", [np.uint8, np.uint16])
@pytest.mark.parametrize("suffix", [".png", ".tif"])
def test_what_is_transparent_is_laid_on_white(archive, suffix, depth):
    made = a_photograph()
    full = np.iinfo(depth).max
    grey = made.picture.astype(depth) * (full // 255)
    alpha = np.full(grey.shape, full, depth)
    alpha[:, :20] = 0
    photograph = read_photograph(archive.add(f"find{suffix}", np.dstack([grey, grey, grey, alpha])))
    assert ALPHA_SENTENCE in photograph.conversions
    assert (photograph.grey[:, :20] == 255).all() and (photograph.grey[:, 20:] == made.picture[:, 20:]).all()


TURNS = {2: np.fliplr, 3: lambda p: np.rot90(p, 2), 6: lambda p: np.rot90(p, -1), 8: lambda p: np.rot90(p, 1)}


@pytest.mark.parametrize("orientation", sorted(TURNS))
def test_a_photograph_is_turned_as_exif_says(archive, orientation):
    made = a_photograph()
    jpeg = read_photograph(archive.add("find.jpg", jpeg_with_exif(encoded(made.picture, ".jpg"), orientation)))
    plain = read_photograph(archive.add("plain.jpg", made.picture))
    assert (jpeg.grey == TURNS[orientation](plain.grey)).all()
    alpha = np.full(made.picture.shape, 255, np.uint8)
    alpha[:9] = 0
    png = encoded(np.dstack([made.picture] * 3 + [alpha]), ".png")
    turned = read_photograph(archive.add("find.png", png_with_chunk(png, b"eXIf", exif_block(orientation))))
    assert (turned.grey == TURNS[orientation](read_photograph(archive.add("plain.png", png)).grey)).all()


def test_corners_of_a_turned_photograph_are_those_of_the_picture_as_it_is_seen(archive):
    made = a_photograph()
    stored = encoded(np.ascontiguousarray(np.rot90(made.picture, 1)), ".jpg", cv2.IMWRITE_JPEG_QUALITY, 95)
    record, = measure(archive.add("find.jpg", jpeg_with_exif(stored, 6)))
    assert distance(record.corners, made.corners) < GOOD_PX and record.request["width"] == made.picture.shape[1]


def test_a_picture_under_the_name_of_another_format(archive):
    made = a_photograph()
    alpha = np.full(made.picture.shape, 255, np.uint8)
    alpha[:, :20] = 0
    png = encoded(np.dstack([made.picture] * 3 + [alpha]), ".png")
    assert (read_photograph(archive.add("find.jpg", png)).grey[:, :20] == 255).all()
    assert measure(archive.add("find.tif", encoded(made.picture, ".jpg")))[0].number == 0


@pytest.mark.parametrize("contents", [b"", b"no picture", encoded(np.zeros((9, 9), np.uint8), ".png")[:50],
                                      encoded(a_photograph().picture, ".tif")[:9000]])
def test_what_is_no_picture_is_said(archive, contents):
    record, = measure(archive.add("find.tif", contents))
    assert record.number is None and "cannot be read as a picture" in record.word and record.corners is None


def test_a_file_that_is_not_there_or_is_a_directory_is_said(archive):
    assert measure(archive.home / "none.jpg")[0].word == "the file cannot be read: no such file or directory"
    assert measure(archive.home)[0].word == "the file cannot be read: is a directory"


def test_a_jpeg_cut_short_is_measured_with_a_warning(archive):
    tall = np.vstack([a_photograph().picture, np.random.default_rng(1).integers(0, 255, (280, 360)).astype(np.uint8)])
    jpeg = encoded(tall, ".jpg", cv2.IMWRITE_JPEG_QUALITY, 95)
    record, = measure(archive.add("find.jpg", jpeg[:len(jpeg) * 3 // 4]))
    assert record.number == 0 and "The file is damaged" in record.warnings[0]


def test_a_picture_that_is_too_wide_is_number_1(archive):
    record, = measure(archive.add("wide.png", np.zeros((3, 16385), np.uint8)))
    assert record.number == 1 and "16384" in record.word


def test_hashes_are_of_the_file(archive):
    path = archive.add("find.png", a_photograph().picture)
    record, = measure(path, Options())
    import hashlib
    assert record.photo_sha256 == hashlib.sha256(path.read_bytes()).hexdigest()
