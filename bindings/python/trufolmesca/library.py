"""The shared object: where it is, and how its functions are declared."""
from __future__ import annotations

import ctypes
import os
from functools import lru_cache
from pathlib import Path
from typing import Any

import numpy as np

SONAME = "libtrufolmesca.so.0"
_BESIDE = Path(__file__).resolve().with_name(SONAME)
# In a repository tools/setup builds it, and the package has none.
_REPOSITORY = Path(__file__).resolve().parents[3]
_BUILT = _REPOSITORY / "target" / "lib" / SONAME
_FOR_THE_LOADER = Path(SONAME)

_U32, _F64, _BOOL, _U8 = ctypes.c_uint32, ctypes.c_double, ctypes.c_bool, ctypes.c_uint8
_LIST = [ctypes.c_void_p, ctypes.c_size_t]
_PHOTOGRAPH = [*_LIST, _U32, _U32, _U32]
_LABEL = [*_LIST, _U32, _F64, _F64, *_LIST, _BOOL]
_CAMERA = [*_LIST, _U32]
_SETTINGS = _LIST
_PROFILE = [_F64, _F64, _F64, _F64, _F64, _BOOL, _BOOL]
_ANSWER = [*_LIST, *_LIST]
_MARKS = [*_LIST, *_LIST]

SIGNATURES: dict[str, tuple[Any, list[Any]]] = {
    "refine_corners": (_U32, [*_PHOTOGRAPH, *_LABEL, *_ANSWER]),
    "refine_corners_mapped": (_U32, [*_PHOTOGRAPH, *_LABEL, *_CAMERA, *_ANSWER]),
    "refine_corners_marking": (_U32, [*_PHOTOGRAPH, *_LABEL, *_ANSWER, *_MARKS]),
    "refine_corners_mapped_marking": (_U32, [*_PHOTOGRAPH, *_LABEL, *_CAMERA, *_ANSWER, *_MARKS]),
    "refine_corners_with": (_U32, [*_PHOTOGRAPH, *_LABEL, *_CAMERA, *_SETTINGS, *_ANSWER]),
    "refine_corners_marking_with": (_U32, [*_PHOTOGRAPH, *_LABEL, *_CAMERA, *_SETTINGS, *_ANSWER, *_MARKS]),
    "sample_bilinear": (_U32, [*_PHOTOGRAPH, _F64, _F64, _U32, _U8, *_LIST]),
    "rectified_to_source": (_U32, [*_CAMERA, _F64, _F64, *_LIST]),
    "square_to_quad": (_U32, [*_LIST, *_LIST]),
    "quad_to_quad": (_U32, [*_LIST, *_LIST, *_LIST]),
    "map": (None, [*_LIST, _F64, _F64, *_LIST]),
    "scaled": (None, [_F64, _F64, *_LIST]),
    "inverse": (None, [*_LIST, *_LIST]),
    "then": (None, [*_LIST, *_LIST, *_LIST]),
    "fit_line_tls_weighted": (_U32, [*_LIST, *_LIST, *_LIST, *_LIST]),
    "intersect_lines": (_U32, [*_LIST, *_LIST, *_LIST]),
    "localize_edge_point": (_U32, [*_PHOTOGRAPH, *_PROFILE, *_LIST]),
    "localize_edge_point_mapped": (_U32, [*_PHOTOGRAPH, *_PROFILE, *_CAMERA, *_LIST]),
    "localize_edge_point_with": (_U32, [*_PHOTOGRAPH, *_PROFILE, *_CAMERA, *_SETTINGS, *_LIST]),
    "smooth_to": (_U32, [*_LIST, _U32, *_LIST]),
    "smooth_over": (_U32, [*_LIST, _U32]),
    "run_card": (_U32, [*_LIST, *_LIST]),
    "widen_result_card": (_U32, [*_LIST, *_LIST]),
    "narrow_result_card": (_U32, [*_LIST, *_LIST]),
    "sqrt": (_F64, [_F64]),
}


class LibraryMissing(OSError):
    """The shared object is not there, or is not Trufolmesca's of this version."""


def library_path() -> Path:
    """The shared object: $TRUFOLMESCA_LIBRARY, else the one in this package or its repository's, else a name that the loader finds."""
    named = os.environ.get("TRUFOLMESCA_LIBRARY")
    if named:
        return Path(named).absolute()
    if os.path.lexists(_BESIDE):
        return _BESIDE
    return _BUILT if _in_repository() else _FOR_THE_LOADER


def _in_repository() -> bool:
    """Whether the package stands in a repository, where the shared object is the one that is built there, even before it is."""
    return (_REPOSITORY / "tools" / "setup").is_file() and (_REPOSITORY / "bindings/python/trufolmesca") == _BESIDE.parent


def archive_sha256() -> str | None:
    """The SHA-256 of the proved archive that the shared object was made of, where a file beside it says so."""
    path = library_path()
    beside = path.with_name("libtrufolmesca.archive-sha256")
    return beside.read_text().strip() if path != _FOR_THE_LOADER and beside.is_file() else None


@lru_cache(maxsize=None)
def load_library() -> ctypes.CDLL:
    """The shared object, loaded once, with its 25 functions declared."""
    path = library_path()
    try:
        if path != _FOR_THE_LOADER:
            _check_file(path)
        loaded = ctypes.CDLL(str(path))
        for name, (result, arguments) in SIGNATURES.items():
            function = getattr(loaded, f"trufolmesca_{name}")
            function.restype, function.argtypes = result, arguments
    except (OSError, AttributeError) as error:
        raise LibraryMissing(f"the library {path} cannot be used ({error}): {_remedy()}") from None
    return loaded


def _check_file(path: Path) -> None:
    """Refuses a file that is not a shared object for the calls as they are declared here."""
    if not path.is_file():
        raise FileNotFoundError("it is not there")
    # A shared object has its soname among its strings, each with a 0 behind it.
    if SONAME.encode() + b"\0" not in path.read_bytes():
        raise OSError(f"it is not {SONAME}")


def _remedy() -> str:
    """What to do where the shared object cannot be used."""
    if os.environ.get("TRUFOLMESCA_LIBRARY"):
        return "TRUFOLMESCA_LIBRARY names it"
    if _BESIDE.is_symlink() or library_path() == _BUILT:
        return "run tools/setup, or install it anew"
    return f"install {SONAME}, or set TRUFOLMESCA_LIBRARY to its path"


def call(name: str, *arguments: object) -> Any:
    """Calls a function; an array among the arguments goes as its pointer and its length."""
    flat: list[object] = []
    for argument in arguments:
        if isinstance(argument, np.ndarray):
            flat += [argument.ctypes.data, argument.size]
        else:
            flat.append(argument)
    return getattr(load_library(), f"trufolmesca_{name}")(*flat)
