"""NAME.json: all that a reader needs to run a measurement again, written whole or not at all."""
from __future__ import annotations

import hashlib
import json
import os
import struct
import subprocess
import tempfile
from dataclasses import asdict, dataclass, field
from functools import lru_cache
from pathlib import Path
from typing import Any

import cv2
import numpy as np
import trufolmesca
from trufolmesca import Camera, Marks, Settings

PICTURES = ("blanked", "sheet", "overlay")


@dataclass
class Record:
    """What is known of one label of a photograph: the fields of NAME.json, and the pictures."""

    number: int | None
    word: str
    photo: str
    photo_sha256: str | None = None
    corners: list[list[float]] | None = None
    refined: list[bool] | None = None
    spread_px: float | None = None
    repeatable: bool | None = None
    warnings: list[str] = field(default_factory=list)
    text: str | None = None
    side_mm: float | None = None
    px_per_mm: list[float] | None = None
    module_px: float | None = None
    rough: list[list[float]] | None = None
    rough_from: str | None = None
    request: dict[str, Any] | None = None
    prepare: dict[str, Any] | None = None
    answer: dict[str, Any] | None = None
    read: int | None = None
    marks: Marks | None = None
    prepared: np.ndarray | None = None

    def as_json(self, name: str) -> dict[str, Any]:
        """The fields of NAME.json, in their order."""
        return {
            "number": self.number,
            "word": self.word,
            "corners": self.corners,
            "refined": self.refined,
            "spread_px": self.spread_px,
            "repeatable": self.repeatable,
            "warnings": self.warnings,
            "photo": self.photo,
            "photo_sha256": self.photo_sha256,
            "text": self.text,
            "side_mm": self.side_mm,
            "px_per_mm": self.px_per_mm,
            "module_px": self.module_px,
            "rough": self.rough,
            "rough_from": self.rough_from,
            "request": self.request,
            "prepare": self.prepare,
            "answer": self.answer,
            "read": self.read,
            "files": {kind: f"{name}.{kind}.png" for kind in PICTURES} if self.marks else None,
            "copy_sha256": sha256_of_pixels(self.marks.copy) if self.marks else None,
            "sheet_sha256": sha256_of_pixels(self.marks.sheet) if self.marks else None,
            "versions": versions(),
        }


def sha256_of_pixels(pixels: np.ndarray) -> str:
    """The SHA-256 of a picture's bytes, row by row."""
    return hashlib.sha256(np.ascontiguousarray(pixels).data).hexdigest()


def bits_of(value: float) -> str:
    """A double as the 16 hexadecimal digits of its bits."""
    return struct.pack(">d", value).hex()


def bits_of_corners(corners: np.ndarray) -> list[list[str]]:
    """Four corners as bits."""
    return [[bits_of(x), bits_of(y)] for x, y in np.asarray(corners).tolist()]


def camera_as_json(camera: Camera | None) -> dict[str, Any] | None:
    """A camera as decimals and as bits."""
    if camera is None:
        return None
    fields = asdict(camera)
    bits = {part: {name: bits_of(value) for name, value in values.items()} for part, values in fields.items() if values}
    return {**fields, "bits": bits}


def settings_as_json(settings: Settings | None) -> dict[str, Any]:
    """All nine settings as decimals and as bits; the defaults too, so that a record says by itself what measured it."""
    fields = asdict(settings or Settings())
    return {**fields, "bits": {name: bits_of(value) for name, value in fields.items()}}


@lru_cache(maxsize=None)
def versions() -> dict[str, str | None]:
    """What ran: this tool, the library's archive by its SHA-256, OpenCV and the decoder."""
    return {
        "tool": trufolmesca.__version__,
        "library_archive_sha256": trufolmesca.archive_sha256(),
        "opencv": cv2.__version__,
        "zxing": _package_version("python3-zxing-cpp"),
    }


def _package_version(package: str) -> str | None:
    """The version of a Debian package: the decoder does not tell its own."""
    try:
        asked = subprocess.run(["dpkg-query", "-W", "-f=${Version}", package], capture_output=True, text=True, check=True)
    except (OSError, subprocess.CalledProcessError):
        return None
    return asked.stdout.strip() or None


def write_whole(path: Path, contents: bytes) -> None:
    """Writes a file under another name and then renames it, so that no one ever finds half of it."""
    handle, temporary = tempfile.mkstemp(prefix=f".{path.name}.", dir=path.parent)
    try:
        with os.fdopen(handle, "wb") as file:
            file.write(contents)
        os.chmod(temporary, 0o666 & ~_umask())
        os.replace(temporary, path)
    except BaseException:
        Path(temporary).unlink(missing_ok=True)
        raise


@lru_cache(maxsize=None)
def _umask() -> int:
    """The process's umask, which a temporary file does not follow."""
    mask = os.umask(0o022)
    os.umask(mask)
    return mask


def json_bytes(fields: dict[str, Any]) -> bytes:
    """Fields as the text of a JSON file for people too: a pair of numbers, or a row of modules, on one line."""
    return (_json_text(fields, "") + "\n").encode()


def _json_text(value: Any, indent: str) -> str:
    """JSON in which dictionaries and lists of texts are spread over lines, and all else is not."""
    deeper = indent + "  "
    if isinstance(value, dict) and value:
        lines = [f"{deeper}{json.dumps(key)}: {_json_text(entry, deeper)}" for key, entry in value.items()]
        return "{\n" + ",\n".join(lines) + f"\n{indent}}}"
    if isinstance(value, list) and value and all(isinstance(entry, (str, dict)) for entry in value):
        lines = [deeper + json.dumps(entry, ensure_ascii=False, allow_nan=False) for entry in value]
        return "[\n" + ",\n".join(lines) + f"\n{indent}]"
    return json.dumps(value, ensure_ascii=False, allow_nan=False)
