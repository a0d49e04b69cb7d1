"""The tool for archives: from a photograph to refined corners and a copy that can be published."""
import os
import sys
from pathlib import Path

ROOT = Path(__file__).resolve().parents[1]
if str(ROOT / "bindings" / "python") not in sys.path:
    sys.path.insert(0, str(ROOT / "bindings" / "python"))

from trufolmesca import LARGEST_SIDE  # noqa: E402  (the path comes first)

# OpenCV reads these when it is loaded: a picture that the library would refuse by 1 is refused by
# its header, so that no file can make a worker take more memory than the largest picture needs.
os.environ.setdefault("OPENCV_IO_MAX_IMAGE_WIDTH", str(LARGEST_SIDE))
os.environ.setdefault("OPENCV_IO_MAX_IMAGE_HEIGHT", str(LARGEST_SIDE))
os.environ.setdefault("OPENCV_LOG_LEVEL", "SILENT")
# OpenEXR is off in OpenCV unless it is asked for.
os.environ.setdefault("OPENCV_IO_ENABLE_OPENEXR", "0")


class Unanswered(Exception):
    """A photograph or a record for which there is no answer; the text says why, and number if the library's."""

    def __init__(self, sentence: str, number: int | None = None):
        super().__init__(sentence)
        self.number = number


def printable(text: str) -> str:
    """A text that a terminal, a file and JSON take: what cannot be printed is a question mark."""
    return "".join(letter if letter.isprintable() else "?" for letter in text)


def reason(error: OSError) -> str:
    """Why the system refused, in its words."""
    return (error.strerror or str(error)).lower()
