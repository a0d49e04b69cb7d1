"""Reading what was published: NAME.json and the pictures, each refused in words where it is not as the tool writes it."""
from __future__ import annotations

import json
import struct
import zlib
from collections.abc import Callable
from pathlib import Path
from typing import Any

import cv2
import numpy as np
from trufolmesca import Camera, Fisheye, Intrinsics, Lens

from tool import LARGEST_SIDE, Unanswered, reason
from tool.record import PICTURES
from tool.settings import recorded_settings

PNG_SIGNATURE = b"\x89PNG\r\n\x1a\n"
PICTURE_CHUNKS = {b"IHDR", b"IDAT", b"IEND"}
OTHER_FORMATS = {b"\xff\xd8\xff": "JPEG", b"II*\0": "TIFF", b"MM\0*": "TIFF", b"GIF8": "GIF", b"RIFF": "WebP", b"BM": "BMP"}
GREY, GREY_DEPTHS = 0, (1, 2, 4, 8)  # a sheet packed anew without loss has 1 bit a pixel
LARGEST_NUMBER = 1e300
COLOUR_TYPES = {0: "grey", 2: "colour", 3: "palette", 4: "grey with transparency", 6: "colour with transparency"}


class Differs(Exception):
    """What was published is not what a run over the copy gives; the text says where."""


def read_fields(path: Path) -> dict[str, Any]:
    """The fields of a record, checked to have the right shape."""
    try:
        fields = json.loads(path.read_bytes())
    except OSError as error:
        raise Differs(f"the file cannot be read: {reason(error)}") from None
    except (ValueError, RecursionError):
        raise Differs("the file is damaged: it is not JSON") from None
    if not isinstance(fields, dict):
        raise Differs("the file is not a record of this tool")
    missing = [key for key in _SHAPES if key not in fields]
    if missing:
        raise Differs(f"the file is damaged, or not a record of this tool: it has no '{missing[0]}'")
    for key, (fits, words) in _SHAPES.items():
        if not fits(fields[key]):
            raise Differs(f"the file is damaged: '{key}' is not {words}")
    _check_settings(fields["request"])
    return fields


def _check_settings(request: dict[str, Any] | None) -> None:
    """Says what is wrong with the settings of a request, if it has any."""
    try:
        recorded_settings(request or {})
    except Unanswered as why:
        raise Differs(f"the file is damaged in its settings: {why}") from None


def _is_number(value: object) -> bool:
    """Whether a value is a number that a double holds, and not a truth value."""
    return isinstance(value, (int, float)) and not isinstance(value, bool) and abs(value) <= LARGEST_NUMBER


def _is_whole(value: object) -> bool:
    """Whether a value is a whole number, or null."""
    return value is None or (isinstance(value, int) and not isinstance(value, bool))


def _is_corners(value: object) -> bool:
    """Whether a value is four pairs of numbers."""
    return (isinstance(value, list) and len(value) == 4
            and all(isinstance(pair, list) and len(pair) == 2 and all(map(_is_number, pair)) for pair in value))


def _is_bits(value: object) -> bool:
    """Whether a value is four pairs of 16 hexadecimal digits."""
    return (isinstance(value, list) and len(value) == 4
            and all(isinstance(pair, list) and len(pair) == 2 and all(map(_is_bit_pattern, pair)) for pair in value))


def _is_bit_pattern(value: object) -> bool:
    """Whether a value is 16 hexadecimal digits."""
    return isinstance(value, str) and len(value) == 16 and not set(value) - set("0123456789abcdef")


def _is_grid(value: object) -> bool:
    """Whether a value is a square of rows of 0 and 1."""
    return (isinstance(value, list) and 2 <= len(value) <= 177
            and all(isinstance(row, str) and len(row) == len(value) and not set(row) - set("01") for row in value))


def _is_side(value: object) -> bool:
    """Whether a value is a width or a height that the library takes."""
    return value is not None and _is_whole(value) and 1 <= value <= LARGEST_SIDE


def _is_numbers_of(names: tuple[str, ...], value: object) -> bool:
    """Whether a value has a number under each of these names."""
    return isinstance(value, dict) and all(_is_number(value.get(name)) for name in names)


_INTRINSICS, _LENS, _FISHEYE = ("fx", "fy", "cx", "cy"), ("k1", "k2", "p1", "p2", "k3"), ("k1", "k2", "k3", "k4")


def _is_fisheye(lens: dict[str, Any]) -> bool:
    """Whether a lens is a fisheye, which alone has a fourth k."""
    return "k4" in lens


def _is_lens(value: object) -> bool:
    """Whether a value is a lens of one of the two models, or null."""
    return value is None or (
        isinstance(value, dict) and _is_numbers_of(_FISHEYE if _is_fisheye(value) else _LENS, value))


def _is_camera(value: object) -> bool:
    """Whether a value is a camera, or null."""
    return value is None or (
        isinstance(value, dict) and _is_numbers_of(_INTRINSICS, value.get("source"))
        and _is_numbers_of(_INTRINSICS, value.get("rectified"))
        and "lens" in value and _is_lens(value["lens"]))


def _is_request(value: object) -> bool:
    """Whether a value is a request that can be run, or null."""
    return value is None or (
        isinstance(value, dict) and _is_side(value.get("width")) and _is_side(value.get("height"))
        and value.get("stride") == value["width"]
        and value.get("scale") == [1, 1] and _is_corners(value.get("corners")) and _is_bits(value.get("corners_bits"))
        and _is_grid(value.get("grid")) and isinstance(value.get("inverted"), bool) and "camera" in value
        and _is_camera(value["camera"]))


def _is_answer(value: object) -> bool:
    """Whether a value is an answer, or null."""
    return value is None or (
        isinstance(value, dict) and _is_corners(value.get("corners")) and _is_bits(value.get("corners_bits"))
        and isinstance(value.get("edges"), list) and len(value["edges"]) == 4)


def _is_files(value: object) -> bool:
    """Whether a value names the pictures, without a way out of the directory, or null."""
    return value is None or (isinstance(value, dict) and all(
        isinstance(value.get(kind), str) and Path(value[kind]).name == value[kind] for kind in PICTURES))


def _or_null(fits: Callable[[object], bool]) -> Callable[[object], bool]:
    """The test that also takes null."""
    return lambda value: value is None or fits(value)


def _is_text(value: object) -> bool:
    """Whether a value is a text."""
    return isinstance(value, str)


def _is_flag(value: object) -> bool:
    """Whether a value is true or false."""
    return isinstance(value, bool)


def _is_four(fits: Callable[[object], bool]) -> Callable[[object], bool]:
    """The test for a list of four of these."""
    return lambda value: isinstance(value, list) and len(value) == 4 and all(map(fits, value))


_SHAPES = {
    "number": (_is_whole, "a whole number or null"),
    "word": (_is_text, "a text"),
    "corners": (_or_null(_is_corners), "four pairs of numbers or null"),
    "refined": (_or_null(_is_four(_is_flag)), "four times true or false, or null"),
    "spread_px": (_or_null(_is_number), "a number or null"),
    "repeatable": (_or_null(_is_flag), "true, false or null"),
    "warnings": (lambda value: isinstance(value, list) and all(map(_is_text, value)), "a list of texts"),
    "photo": (_is_text, "a text"),
    "photo_sha256": (_or_null(_is_text), "a text or null"),
    "text": (_or_null(_is_text), "a text or null"),
    "side_mm": (_or_null(_is_number), "a number or null"),
    "px_per_mm": (_or_null(_is_four(_is_number)), "four numbers or null"),
    "module_px": (_or_null(_is_number), "a number or null"),
    "rough": (_or_null(_is_corners), "four pairs of numbers or null"),
    "rough_from": (lambda value: value in (None, "decoder", "given"), "'decoder', 'given' or null"),
    "request": (_is_request, "a request that can be run again"),
    "prepare": (_or_null(lambda value: _is_numbers_of(("sigma_px",), value) and _is_text(value.get("sentence"))),
                "a Gaussian and a sentence, or null"),
    "answer": (_is_answer, "an answer"),
    "read": (_is_whole, "a whole number or null"),
    "files": (_is_files, "names of files beside it"),
    "copy_sha256": (_or_null(_is_text), "a text or null"),
    "sheet_sha256": (_or_null(_is_text), "a text or null"),
    "versions": (lambda value: isinstance(value, dict), "what ran"),
}


def camera_of(fields: dict[str, Any] | None) -> Camera | None:
    """The camera of a record."""
    if fields is None:
        return None
    source, rectified = (Intrinsics(*(float(fields[part][name]) for name in _INTRINSICS)) for part in ("source", "rectified"))
    return Camera(source, rectified, _lens_of(fields["lens"]))


def _lens_of(fields: dict[str, Any] | None) -> Lens | Fisheye | None:
    """The lens of a record."""
    if fields is None:
        return None
    if _is_fisheye(fields):
        return Fisheye(*(float(fields[name]) for name in _FISHEYE))
    return Lens(*(float(fields[name]) for name in _LENS))


def read_published(path: Path, what: str, request: dict[str, Any]) -> np.ndarray:
    """The pixels of a published picture: PNG, grey, 8 bits, of the photograph's size, without metadata."""
    try:
        data = path.read_bytes()
    except OSError:
        raise Differs(f"the {what} {path.name} is not there, or cannot be read") from None
    chunks = _chunks(data, f"{what} {path.name}")
    width, height, depth, colour = struct.unpack(">IIBB", chunks[0][1][:10])
    if colour != GREY or depth not in GREY_DEPTHS:
        raise Differs(f"the {what} {path.name} is {COLOUR_TYPES.get(colour, 'of an unknown kind')} of {depth} bits, not grey of 8")
    if (width, height) != (request["width"], request["height"]):
        raise Differs(f"the {what} {path.name} has {width} by {height} pixels, and the photograph had "
                      f"{request['width']} by {request['height']}: it was scaled or cut")
    extra = sorted({kind.decode("latin-1") for kind, _ in chunks if kind not in PICTURE_CHUNKS})
    if extra:
        raise Differs(f"the {what} {path.name} carries metadata ({', '.join(extra)}), which could show what is closed")
    pixels = cv2.imdecode(np.frombuffer(data, np.uint8), cv2.IMREAD_UNCHANGED)
    if pixels is None or pixels.shape != (height, width) or pixels.dtype != np.uint8:
        raise Differs(f"the {what} {path.name} is damaged: its pixels cannot be read")
    return pixels


def _chunks(data: bytes, what: str) -> list[tuple[bytes, bytes]]:
    """The chunks of a PNG file, each with its contents, up to the file's end."""
    if not data.startswith(PNG_SIGNATURE):
        kind = next((name for start, name in OTHER_FORMATS.items() if data.startswith(start)), None)
        raise Differs(f"the {what} is not a PNG" + (f" but a {kind} under that name, whose pixels are not exact" if kind else ""))
    chunks, at = [], len(PNG_SIGNATURE)
    while at < len(data):
        length, kind = struct.unpack(">I4s", data[at:at + 8]) if at + 12 <= len(data) else (len(data), b"")
        contents, check = data[at + 8:at + 8 + length], data[at + 8 + length:at + 12 + length]
        if len(check) < 4 or struct.unpack(">I", check)[0] != zlib.crc32(kind + contents):
            raise Differs(f"the {what} is damaged, or something was added behind its end")
        chunks.append((kind, contents))
        at += 12 + length
    if not chunks or chunks[0][0] != b"IHDR" or len(chunks[0][1]) != 13 or chunks[-1][0] != b"IEND":
        raise Differs(f"the {what} is damaged")
    return chunks
