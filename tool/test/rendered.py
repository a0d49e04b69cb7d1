"""Photographs that the tests share, rendered with known corners and written in every format."""
from __future__ import annotations

import struct
import zlib
from functools import lru_cache

import cv2
import numpy as np

from tool.render import Label, Rendered, quad, render

SIZE = (360, 280)
GOOD_PX = 0.1  # a corner of these renderings is this close to the truth, or something is wrong


@lru_cache(maxsize=None)
def a_photograph(text: str = "FIND 1234", **how) -> Rendered:
    """A rendered photograph of one label of 21 modules, some 7 pixels each, turned and tilted."""
    corners = quad((180, 140), side=150, angle=how.pop("angle", 8), tilt=how.pop("tilt", 15))
    ink = {key: how.pop(key) for key in ("inverted", "dark", "light") if key in how}
    return render(Label(text, **ink), corners, SIZE, **{"blur": 0.9, "noise": 2, **how})


@lru_cache(maxsize=None)
def two_labels() -> tuple[np.ndarray, np.ndarray, np.ndarray]:
    """A photograph of two labels, and the corners of the upper and of the lower."""
    upper = render(Label("UPPER"), quad((150, 120), side=130, angle=5), (400, 480), blur=0.8, noise=2)
    lower = render(Label("LOWER"), quad((250, 350), side=140, angle=-9), (400, 480), blur=0.8, noise=2,
                   background=upper.picture.astype(float))
    return lower.picture, upper.corners, lower.corners


def exif_block(orientation: int) -> bytes:
    """An EXIF block with nothing but an orientation."""
    return b"II*\0" + struct.pack("<IHHHIII", 8, 1, 0x112, 3, 1, orientation, 0)


def jpeg_with_exif(jpeg: bytes, orientation: int) -> bytes:
    """A JPEG with an orientation."""
    block = b"Exif\0\0" + exif_block(orientation)
    return jpeg[:2] + b"\xff\xe1" + struct.pack(">H", len(block) + 2) + block + jpeg[2:]


def png_with_chunk(png: bytes, kind: bytes, contents: bytes) -> bytes:
    """A PNG with one more chunk behind its header."""
    check = struct.pack(">I", zlib.crc32(kind + contents))
    return png[:33] + struct.pack(">I", len(contents)) + kind + contents + check + png[33:]


def encoded(picture: np.ndarray, suffix: str, *options: int) -> bytes:
    """A picture in a format of OpenCV's."""
    done, data = cv2.imencode(suffix, picture, list(options))
    assert done
    return data.tobytes()


def distance(corners, truth) -> float:
    """How far the farthest of four corners is from the truth."""
    return float(np.linalg.norm(np.array(corners) - truth, axis=1).max())
