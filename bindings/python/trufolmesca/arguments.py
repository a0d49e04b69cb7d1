"""What a user hands over, as the calls take it: a TypeError or a ValueError says what is wrong with it."""
from __future__ import annotations

import operator
from typing import Any

import numpy as np
from numpy.lib.stride_tricks import as_strided
from numpy.typing import ArrayLike, NDArray

LARGEST_SIDE = 16384       # of a photograph; more is refused by 1
_LARGEST_STRIDE = 65535    # more is refused by 2
_LARGEST_U32 = 2 ** 32 - 1
_LARGEST_HEIGHT = 2 ** 16 - 1
_NEITHER = 2               # stands for a module that is not 0 or 1, which the library refuses by 3

Photograph = tuple[NDArray[np.uint8], int, int, int]


def _array(what: str, values: ArrayLike) -> NDArray[Any]:
    """Values as an array."""
    try:
        return np.asarray(values)
    except ValueError:
        raise ValueError(f"{what}: the rows have different lengths") from None


def photograph_arguments(picture: ArrayLike) -> Photograph:
    """A picture as the calls read it: bytes, width, height, stride; not copied where each row lies in one piece."""
    array = _array("the photograph", picture)
    if array.dtype != np.uint8:
        raise TypeError(f"the photograph is of {array.dtype}, not of uint8: bring it to 8 bits first")
    if array.ndim != 2:
        raise ValueError(f"the photograph has the shape {array.shape}, not rows and columns: "
                         "make a colour picture grey first")
    height, width = array.shape
    if array.flags.c_contiguous or not (array.strides[1] == 1 and width <= array.strides[0] <= _LARGEST_STRIDE):
        pixels, stride = np.ascontiguousarray(array).reshape(-1), width
    else:
        stride = array.strides[0]
        pixels = as_strided(array, ((height - 1) * stride + width,), (1,), writeable=False)
    # A side that an u32 does not hold is still refused by 1.
    return pixels, min(width, _LARGEST_U32), min(height, _LARGEST_U32), min(stride, _LARGEST_U32)


def modules_and_dimension(modules: ArrayLike) -> tuple[NDArray[np.uint8], int]:
    """A label's modules by rows, and how many rows there are."""
    grid = _array("the modules", modules)
    if grid.dtype.kind not in "biu":
        raise TypeError(f"the modules are of {grid.dtype}, not bools or whole numbers")
    if grid.ndim != 2 or grid.shape[0] != grid.shape[1]:
        raise ValueError(f"the modules have the shape {grid.shape}, not as many rows as columns")
    return np.where((grid == 0) | (grid == 1), grid, _NEITHER).astype(np.uint8).reshape(-1), grid.shape[0]


def numbers(what: str, values: ArrayLike, *shape: int | None) -> NDArray[np.float64]:
    """Values of a shape, in which None is any length, as a list of doubles; NaN is the library's to refuse."""
    array = _array(what, values)
    if array.dtype.kind not in "iuf":
        raise TypeError(f"{what}: numbers are wanted, not {array.dtype}")
    if len(array.shape) != len(shape) or any(want not in (None, have) for want, have in zip(shape, array.shape)):
        wanted = " by ".join("n" if side is None else str(side) for side in shape) or "one number"
        raise ValueError(f"{what}: the shape is {array.shape}, not {wanted}")
    return np.ascontiguousarray(array, np.float64).reshape(-1)


def number(what: str, value: float) -> float:
    """A value as one double."""
    return value if isinstance(value, float) else float(numbers(what, value)[0])


def flag(what: str, value: bool) -> bool:
    """A value that is True or False, and nothing that only passes for it."""
    if not isinstance(value, (bool, np.bool_)):
        raise TypeError(f"{what} is True or False, not {value!r}")
    return bool(value)


def byte(what: str, value: int) -> int:
    """A whole number from 0 to 255."""
    whole = operator.index(value)
    if not 0 <= whole <= 255:
        raise ValueError(f"{what} is a whole number from 0 to 255, not {whole}")
    return whole


def instance(what: str, value: object, *kinds: type) -> None:
    """Demands a value of one of these classes of the package."""
    if not isinstance(value, kinds):
        raise TypeError(f"{what} is of class {' or '.join(kind.__name__ for kind in kinds)}, not {type(value).__name__}")


def heights(what: str, values: ArrayLike) -> NDArray[np.uint16]:
    """Whole numbers from 0 to 65535 as a list of heights; not copied where they are one."""
    array = _array(what, values)
    if array.ndim != 1:
        raise ValueError(f"{what}: the shape is {array.shape}, not n")
    if array.dtype.kind not in "iu" and array.size:
        raise TypeError(f"{what}: whole numbers are wanted, not {array.dtype}")
    if array.size and not (0 <= array.min() and array.max() <= _LARGEST_HEIGHT):
        raise ValueError(f"{what}: a height is a whole number from 0 to {_LARGEST_HEIGHT}")
    return np.ascontiguousarray(array, np.uint16)


def lent_heights(what: str, array: NDArray[np.uint16]) -> NDArray[np.uint16]:
    """An array of heights that a call writes to, so that it must lie in one piece."""
    instance(what, array, np.ndarray)
    if array.dtype != np.uint16:
        raise TypeError(f"{what} is of {array.dtype}, not of uint16")
    if array.ndim != 1 or not array.flags.c_contiguous or not array.flags.writeable:
        raise ValueError(f"{what} is not one list of heights that lies in one piece and can be written")
    return array


def window_argument(window: int) -> int:
    """A window as the calls take it; one that an u32 does not hold is 0, refused by 21 too."""
    whole = operator.index(window)
    return whole if 0 <= whole <= _LARGEST_U32 else 0
