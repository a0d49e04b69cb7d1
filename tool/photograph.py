"""Reading photographs: any format and depth that OpenCV reads, as grey pixels of 8 bits."""
from __future__ import annotations

import hashlib
import os
import sys
import tempfile
from collections.abc import Iterator
from contextlib import contextmanager
from dataclasses import dataclass
from pathlib import Path
from typing import BinaryIO

import cv2
import numpy as np
from trufolmesca import Number, word_of

from tool import LARGEST_SIDE, Unanswered, printable, reason

AS_STORED = cv2.IMREAD_ANYDEPTH | cv2.IMREAD_ANYCOLOR  # turned as EXIF says, without alpha
TIFF_STARTS = (b"II*\0", b"MM\0*", b"II+\0", b"MM\0+")
JPEG_START = b"\xff\xd8\xff"
GREY_SENTENCE = "Colour was turned to grey by OpenCV's weights, 0.299 red + 0.587 green + 0.114 blue."
DEPTH_SENTENCE = "Samples of 16 bits were brought to 8 by dividing by 257 and rounding."
FLOAT_SENTENCE = "Samples that are fractions were brought to 8 bits, 0 to 1 (or to the largest, if above 1) as 0 to 255."
ALPHA_SENTENCE = "What is transparent was laid on white."


@dataclass(frozen=True)
class Photograph:
    """A photograph as it is measured: its file, its grey pixels, and how these came from the file's."""

    name: str
    sha256: str
    grey: np.ndarray
    conversions: tuple[str, ...]
    warnings: tuple[str, ...]


def sha256_of_file(path: Path) -> str:
    """The SHA-256 of a file's bytes."""
    with open(path, "rb") as file:
        return hashlib.file_digest(file, "sha256").hexdigest()


def read_photograph(path: Path) -> Photograph:
    """A photograph's grey pixels; Unanswered, with a sentence, where the file holds no picture."""
    try:
        with open(path, "rb") as file:
            sha256 = hashlib.file_digest(file, "sha256").hexdigest()
            stored, complaint = _decode(file, AS_STORED)
            conversions: list[str] = []
            grey = _on_white(file, stored, _one_channel(stored, conversions), conversions)
            warnings = _warnings(complaint, _pages(file))
    except OSError as error:
        raise Unanswered(f"the file cannot be read: {reason(error)}") from None
    return Photograph(printable(path.name), sha256, _eight_bits(grey, conversions), tuple(conversions), warnings)


def _warnings(complaint: str, pages: int) -> tuple[str, ...]:
    """What is to be said of a file that is not one whole picture."""
    damaged = f"The file is damaged, and a part of the picture may be missing ({complaint})."
    several = f"The file holds {pages} pictures, of which the first was measured."
    return tuple(sentence for sentence, said in ((damaged, complaint), (several, pages > 1)) if said)


def _pages(file: BinaryIO) -> int:
    """How many pictures a TIFF file holds; 1 of any other file."""
    file.seek(0)
    if file.read(4) not in TIFF_STARTS:
        return 1
    with _decoder_messages():
        return cv2.imcount(f"/proc/self/fd/{file.fileno()}")


def _decode(file: BinaryIO, flags: int) -> tuple[np.ndarray, str]:
    """A file's samples, and what the decoder complained about."""
    with _decoder_messages() as messages:
        try:
            # By its descriptor it is the file that was hashed, and its name may be any bytes.
            stored = cv2.imread(f"/proc/self/fd/{file.fileno()}", flags)
        except (cv2.error, MemoryError) as error:
            if "CV_IO_MAX_IMAGE" in str(error):
                raise Unanswered(word_of(Number.SIZE), Number.SIZE) from None
            raise Unanswered("the file cannot be read as a picture, or is too large for the memory") from None
    if stored is None or stored.size == 0:
        raise Unanswered("the file cannot be read as a picture: it is damaged, or of a format that OpenCV does not read")
    if max(stored.shape[:2]) > LARGEST_SIDE:
        raise Unanswered(word_of(Number.SIZE), Number.SIZE)
    return stored, "; ".join(messages)


@contextmanager
def _decoder_messages() -> Iterator[list[str]]:
    """Collects what the C libraries write to standard error: a JPEG cut short is decoded, and only said there."""
    messages: list[str] = []
    sys.stderr.flush()
    kept = os.dup(2)
    with tempfile.TemporaryFile() as caught:
        os.dup2(caught.fileno(), 2)
        try:
            yield messages
        finally:
            os.dup2(kept, 2)
            os.close(kept)
            caught.seek(0)
            lines = caught.read(4096).decode("utf-8", "replace").splitlines()
            messages += [line.strip() for line in lines if "JPEG" in line]


def _one_channel(stored: np.ndarray, conversions: list[str]) -> np.ndarray:
    """The samples as one channel of the same depth."""
    if stored.ndim == 2:
        return stored
    conversions.append(GREY_SENTENCE)
    return cv2.cvtColor(stored, cv2.COLOR_BGR2GRAY)


def _on_white(file: BinaryIO, stored: np.ndarray, grey: np.ndarray, conversions: list[str]) -> np.ndarray:
    """The grey samples laid on white where the file has an alpha channel, so that what is read is what is seen."""
    file.seek(0)
    if stored.ndim != 3 or file.read(len(JPEG_START)) == JPEG_START:  # these have no alpha channel
        return grey
    unturned, _ = _decode(file, cv2.IMREAD_UNCHANGED)
    if unturned.ndim != 3 or unturned.shape[2] != 4:
        return grey
    conversions.append(ALPHA_SENTENCE)
    white = 1.0 if grey.dtype == np.float32 else float(np.iinfo(grey.dtype).max)
    alpha = _turned_alike(unturned, stored).astype(np.float32) / white
    laid = alpha * grey + (1 - alpha) * white
    return laid if grey.dtype == np.float32 else np.rint(laid).astype(grey.dtype)


def _turned_alike(unturned: np.ndarray, turned: np.ndarray) -> np.ndarray:
    """The alpha channel turned as the colours were: OpenCV turns a picture by EXIF only without its alpha."""
    for mirrored in (False, True):
        picture = np.fliplr(unturned) if mirrored else unturned
        for quarter in range(4):
            candidate = np.rot90(picture, quarter)
            if candidate.shape[:2] == turned.shape[:2] and np.array_equal(candidate[..., :3], turned):
                return candidate[..., 3]
    raise Unanswered("the picture's transparency cannot be brought together with its colours")


def _eight_bits(grey: np.ndarray, conversions: list[str]) -> np.ndarray:
    """Samples of any depth as 8 bits."""
    if grey.dtype == np.uint8:
        return grey
    if grey.dtype == np.uint16:
        conversions.append(DEPTH_SENTENCE)
        return ((grey.astype(np.uint32) + 128) // 257).astype(np.uint8)
    if grey.dtype not in (np.float32, np.float64) or not np.isfinite(grey).all():
        raise Unanswered(f"the picture's samples ({grey.dtype}) are not 8 or 16 bits without sign, nor fractions")
    conversions.append(FLOAT_SENTENCE)
    return np.rint(np.clip(grey / max(1.0, float(grey.max())), 0, 1) * 255).astype(np.uint8)
