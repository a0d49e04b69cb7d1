"""Camera files as OpenCV writes them (YAML, JSON or XML), and places brought into rectified pixels."""
from __future__ import annotations

import math
from dataclasses import astuple
from pathlib import Path

import cv2
import numpy as np
from trufolmesca import Camera, Fisheye, Intrinsics, Lens

from tool import Unanswered

MATRIX_NAMES = ("camera_matrix", "cameraMatrix", "CameraMatrix", "mtx", "K")
LENS_NAMES = ("distortion_coefficients", "distCoeffs", "dist_coeffs", "dist", "D")
FISHEYE_NAME = "fisheye_model"  # OpenCV's calibration program writes 1 or 0: four coefficients alone could be of either model
RECTIFIED_NAMES = ("new_camera_matrix", "newCameraMatrix", "newcameramtx")
NEWTON_STEPS = 50
CLOSE_PX = 1e-6  # a rough corner needs no more


def read_camera(path: Path) -> tuple[Camera, tuple[int, int] | None]:
    """The camera of a file, and the size of the pictures it was calibrated on, if the file has it."""
    storage = _storage(path)
    matrix = _matrix(storage, MATRIX_NAMES)
    if matrix is None:
        raise Unanswered(f"the camera file {path} has no camera_matrix of 3 by 3 numbers")
    source = _intrinsics(path, matrix)
    rectified = _matrix(storage, RECTIFIED_NAMES)
    camera = Camera(source, source if rectified is None else _intrinsics(path, rectified), _lens(path, storage))
    return camera, _size(storage)


def _storage(path: Path) -> cv2.FileStorage:
    """The file, opened by OpenCV."""
    if not path.is_file():
        raise Unanswered(f"the camera file {path} is not there")
    try:
        storage = cv2.FileStorage(str(path), cv2.FILE_STORAGE_READ)
        if storage.isOpened():
            return storage
    except (cv2.error, SystemError):
        pass
    raise Unanswered(f"the camera file {path} is not one that OpenCV wrote (YAML, JSON or XML)")


def _matrix(storage: cv2.FileStorage, names: tuple[str, ...]) -> np.ndarray | None:
    """The first matrix that the file has under one of the names."""
    for name in names:
        node = storage.getNode(name)
        if not node.empty():
            try:
                return node.mat()
            except cv2.error:
                return None
    return None


def _intrinsics(path: Path, matrix: np.ndarray) -> Intrinsics:
    """Focal lengths and principal point of a camera matrix."""
    if matrix.shape != (3, 3) or not np.isfinite(matrix).all():
        raise Unanswered(f"the camera file {path} has a camera matrix that is not 3 by 3 numbers")
    if matrix[0, 1] != 0 or matrix[1, 0] != 0 or tuple(matrix[2]) != (0, 0, 1):
        raise Unanswered(f"the camera file {path} has a camera matrix with skew, which is not provided for")
    if matrix[0, 0] <= 0 or matrix[1, 1] <= 0:
        raise Unanswered(f"the camera file {path} has a focal length that is not above 0")
    return Intrinsics(float(matrix[0, 0]), float(matrix[1, 1]), float(matrix[0, 2]), float(matrix[1, 2]))


def _fisheye(path: Path, storage: cv2.FileStorage) -> Fisheye:
    """The lens of a camera file that says it is a fisheye: k1, k2, k3, k4."""
    matrix = _matrix(storage, LENS_NAMES)
    values = np.asarray([] if matrix is None else matrix, float).ravel()
    if len(values) != 4 or not np.isfinite(values).all():
        raise Unanswered(f"the camera file {path} is of a fisheye, and its distortion coefficients are not k1, k2, k3, k4")
    return Fisheye(*values.tolist())


def _lens(path: Path, storage: cv2.FileStorage) -> Lens | Fisheye | None:
    """The lens of a camera file: k1, k2, p1, p2, k3, or those of a fisheye, or None where the file has none."""
    if storage.getNode(FISHEYE_NAME).real() != 0:
        return _fisheye(path, storage)
    matrix = _matrix(storage, LENS_NAMES)
    if matrix is None:
        return None
    values = np.asarray(matrix, float).ravel()
    if len(values) not in (4, 5, 8, 12, 14) or not np.isfinite(values).all():
        raise Unanswered(f"the camera file {path} has distortion coefficients that are not k1, k2, p1, p2, k3")
    if np.any(values[5:] != 0):
        raise Unanswered(f"the camera file {path} has a lens with more coefficients than k1, k2, p1, p2, k3: "
                         "calibrate with these five alone")
    return Lens(*[float(value) for value in np.resize(np.append(values, 0.0), 5)])


def _size(storage: cv2.FileStorage) -> tuple[int, int] | None:
    """Width and height of the pictures that the camera was calibrated on."""
    width, height = storage.getNode("image_width"), storage.getNode("image_height")
    if width.empty() or height.empty() or not (width.isInt() and height.isInt()):
        return None
    return int(width.real()), int(height.real())


def to_source(camera: Camera | None, points: np.ndarray) -> np.ndarray:
    """Where rectified places lie in the photograph, many at once; for sampling, the answer's go through the library."""
    if camera is None:
        return points
    rectified, source = camera.rectified, camera.source
    rays = (points - [rectified.cx, rectified.cy]) / [rectified.fx, rectified.fy]
    x, y = _bent(camera.lens, rays[..., 0], rays[..., 1])
    return np.stack([x * source.fx + source.cx, y * source.fy + source.cy], axis=-1)


def _bent(lens: Lens | Fisheye | None, x: np.ndarray, y: np.ndarray) -> tuple[np.ndarray, np.ndarray]:
    """Places on the picture plane as the lens bends them; no number where a fisheye has no image."""
    if lens is None:
        return x, y
    if isinstance(lens, Fisheye):
        r = np.hypot(x, y)
        t = np.arctan2(r, 1.0)
        t2 = t * t
        bent = t * (1 + t2 * (lens.k1 + t2 * (lens.k2 + t2 * (lens.k3 + t2 * lens.k4))))
        scale = np.where(r == 0, 1.0, np.where(bent > 0, bent, math.nan) / np.where(r == 0, 1.0, r))
        return x * scale, y * scale
    k1, k2, p1, p2, k3 = astuple(lens)
    r2 = x * x + y * y
    radial = 1 + r2 * (k1 + r2 * (k2 + r2 * k3))
    return (x * radial + 2 * p1 * x * y + p2 * (r2 + 2 * x * x),
            y * radial + p1 * (r2 + 2 * y * y) + 2 * p2 * x * y)


def to_rectified(camera: Camera | None, points: np.ndarray) -> np.ndarray:
    """Where places of the photograph lie in the rectified picture, by steps against the forward map."""
    if camera is None:
        return points
    guess = _first_guess(camera, np.array(points, float))
    for _ in range(NEWTON_STEPS):
        miss = to_source(camera, guess) - points
        if np.abs(miss).max() < CLOSE_PX:
            return guess
        guess = guess - _solved(camera, guess, miss)
        if not np.isfinite(guess).all():
            break
    raise Unanswered("a rough corner has no counterpart behind this camera: is the camera file of this camera?")


def _first_guess(camera: Camera, points: np.ndarray) -> np.ndarray:
    """Where the steps begin: at the places themselves, behind a fisheye nearer to the axis than where they end, since from beyond
    it the steps would overshoot."""
    if not isinstance(camera.lens, Fisheye):
        return points
    source, rectified = camera.source, camera.rectified
    return ((points - [source.cx, source.cy]) * [rectified.fx / source.fx, rectified.fy / source.fy]
            + [rectified.cx, rectified.cy])


def _solved(camera: Camera, points: np.ndarray, miss: np.ndarray) -> np.ndarray:
    """Newton's step of each point, with the derivative taken over a thousandth of a pixel."""
    reach = 1e-3
    across = (to_source(camera, points + [reach, 0]) - to_source(camera, points - [reach, 0])) / (2 * reach)
    down = (to_source(camera, points + [0, reach]) - to_source(camera, points - [0, reach])) / (2 * reach)
    determinant = across[..., 0] * down[..., 1] - down[..., 0] * across[..., 1]
    safe = np.where(determinant == 0, math.nan, determinant)
    return np.stack([(miss[..., 0] * down[..., 1] - down[..., 0] * miss[..., 1]) / safe,
                     (across[..., 0] * miss[..., 1] - miss[..., 0] * across[..., 1]) / safe], axis=-1)
