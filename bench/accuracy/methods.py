"""The ways to a label's corners that are compared. Each takes a scene and gives corners in the photograph's pixels, or None."""
import tempfile
from dataclasses import dataclass
from pathlib import Path
from typing import Callable, Dict, Optional, Tuple

import cv2
import numpy as np
import zxingcpp

from scenes import Scene
from tool.measure import Options, measure
from tool.render import distorted, undistorted
import trufolmesca

STOP = (cv2.TERM_CRITERIA_EPS + cv2.TERM_CRITERIA_MAX_ITER, 40, 0.001)


ALL, FINDERS = (0, 1, 2, 3), (0, 1, 3)


@dataclass(frozen=True)
class Found:
    """What a method answered: corners or None, whether it marked them itself as not to be trusted, and which of them count."""
    corners: Optional[np.ndarray]
    marked: bool = False
    counted: Tuple[int, ...] = ALL


def decoder(scene: Scene) -> Found:
    """The corners of zxing-cpp as it hands them out."""
    results = zxingcpp.read_barcodes(scene.picture, formats=zxingcpp.BarcodeFormat.QRCode)
    if not results:
        return Found(None)
    place = results[0].position
    corners = (place.top_left, place.top_right, place.bottom_right, place.bottom_left)
    return Found(np.array([[corner.x, corner.y] for corner in corners], float))


def rough(scene: Scene) -> Found:
    """The same, counted from the first pixel's centre: half a pixel less."""
    corners = decoder(scene).corners
    return Found(None if corners is None else corners - 0.5)


def given(scene: Scene) -> Found:
    """Corners as given by hand."""
    return Found(scene.given)


def opencv_decoder(scene: Scene) -> Found:
    """The corners of OpenCV's QRCodeDetector."""
    found, corners = cv2.QRCodeDetector().detect(scene.picture)
    return Found(corners.reshape(4, 2).astype(float) if found else None)


def corner_sub_pix(scene: Scene, start: Optional[np.ndarray], window: float = 0.5, counted: Tuple[int, ...] = ALL) -> Found:
    """OpenCV's cornerSubPix, whose window reaches so many modules from the rough corner, and two pixels at least."""
    if start is None:
        return Found(None)
    reach = max(2, int(round(window * scene.case.module)))
    places = start.astype(np.float32).reshape(-1, 1, 2)
    corners = cv2.cornerSubPix(scene.picture, places, (reach, reach), (-1, -1), STOP).reshape(4, 2)
    return Found(corners.astype(float), counted=counted)


def library_camera(scene: Scene) -> Optional[trufolmesca.Camera]:
    """The scene's camera as the library takes it, or None."""
    if scene.camera is None:
        return None
    source, rectified = (trufolmesca.Intrinsics(*numbers) for numbers in (scene.camera.source, scene.camera.rectified))
    return trufolmesca.Camera(source, rectified, trufolmesca.Lens(*scene.camera.lens))


def plain(scene: Scene, start: Optional[np.ndarray]) -> Found:
    """One call of the refinement over the picture as it is, through the camera where there is a lens."""
    if start is None:
        return Found(None)
    try:
        if scene.camera is None:
            return Found(trufolmesca.refine_corners(scene.picture, scene.grid, start).corners)
        answer = trufolmesca.refine_corners_mapped(scene.picture, scene.grid, undistorted(scene.camera, start), library_camera(scene))
    except trufolmesca.Refused:
        return Found(None)
    return Found(distorted(scene.camera, answer.corners))


def this_tool(scene: Scene, start: Optional[np.ndarray] = None, lens: bool = True) -> Found:
    """`trufolmesca measure` on the picture as a file, its corners found by the decoder or given; without the camera file if told so."""
    camera = library_camera(scene) if lens else None
    with tempfile.TemporaryDirectory() as folder:
        path = Path(folder) / "label.png"
        cv2.imwrite(str(path), scene.picture, [cv2.IMWRITE_PNG_COMPRESSION, 0])
        record = measure(path, Options(corners=start, camera=camera))[0]
    if record.number != 0:
        return Found(None)
    return Found(np.array(record.corners), bool(record.warnings) or not record.repeatable)


FROM_DECODER: Dict[str, Callable[[Scene], Found]] = {
    "zxing-cpp's corners": decoder,
    "OpenCV's QRCodeDetector": opencv_decoder,
    "rough corners (zxing-cpp less half a pixel)": rough,
    "cornerSubPix from these": lambda scene: corner_sub_pix(scene, rough(scene).corners),
    "cornerSubPix, the three finder corners alone": lambda scene: corner_sub_pix(scene, rough(scene).corners, counted=FINDERS),
    "the plain refinement from these": lambda scene: plain(scene, rough(scene).corners),
    "this tool": this_tool,
}
FROM_HAND: Dict[str, Callable[[Scene], Found]] = {
    "rough corners as given": given,
    "cornerSubPix from these": lambda scene: corner_sub_pix(scene, scene.given),
    "the plain refinement from these": lambda scene: plain(scene, scene.given),
    "this tool with --corners": lambda scene: this_tool(scene, scene.given),
}
WITHOUT_CAMERA: Dict[str, Callable[[Scene], Found]] = {
    "this tool without the camera file": lambda scene: this_tool(scene, lens=False)}
WINDOWS: Dict[str, Callable[[Scene], Found]] = {
    f"a window of {window} module": lambda scene, window=window: corner_sub_pix(scene, rough(scene).corners, window)
    for window in (0.35, 0.5, 0.7, 1.0, 1.4)}
