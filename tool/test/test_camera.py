"""Camera files as OpenCV writes them, and labels measured through a lens."""
from __future__ import annotations

import cv2
import numpy as np
import pytest
import trufolmesca
from rendered import distance

from tool import Unanswered
from tool.camera import read_camera, to_rectified, to_source
from tool.measure import Options, measure, refine_picture
from tool.render import Camera as RenderedCamera, Label, distorted, quad, render
from trufolmesca import Camera, Fisheye, Intrinsics, Lens

SIZE = (480, 400)
BENT = RenderedCamera.of_size(SIZE)
CAMERA = Camera(Intrinsics(*BENT.source), Intrinsics(*BENT.rectified), Lens(*BENT.lens))
# A fisheye whose rectified picture has its middle larger than the photograph, as one asks for it.
ROUND = RenderedCamera((210.0, 212.0, 238.0, 201.0), (260.0, 260.0, 239.5, 199.5), (0.03, -0.012, 0.004, -0.001))
FISHEYE = Camera(Intrinsics(*ROUND.source), Intrinsics(*ROUND.rectified), Fisheye(*ROUND.lens))


def written(path, matrix, lens, size=None, names=("camera_matrix", "distortion_coefficients"), fisheye=None, rectified=None):
    """A camera file, written by OpenCV."""
    storage = cv2.FileStorage(str(path), cv2.FILE_STORAGE_WRITE)
    if fisheye is not None:
        storage.write("fisheye_model", fisheye)
    if rectified is not None:
        storage.write("new_camera_matrix", np.array(rectified, float))
    if size:
        storage.write("image_width", size[0])
        storage.write("image_height", size[1])
    storage.write(names[0], np.array(matrix, float))
    if lens is not None:
        storage.write(names[1], np.array(lens, float))
    storage.release()
    return path


def matrix_of(intrinsics) -> list:
    """The camera matrix of focal lengths and principal point."""
    fx, fy, cx, cy = intrinsics
    return [[fx, 0, cx], [0, fy, cy], [0, 0, 1]]


def bent_photograph():
    """A label near the edge of a picture that a wide angle bends."""
    return render(Label("LENS"), quad((130, 110), side=150, angle=10), SIZE, blur=0.9, noise=2, camera=BENT)


@pytest.mark.parametrize("suffix", [".yml", ".json", ".xml"])
def test_a_camera_file_of_opencv_is_read(tmp_path, suffix):
    path = written(tmp_path / f"camera{suffix}", matrix_of(BENT.source), [BENT.lens], SIZE)
    assert read_camera(path) == (CAMERA, SIZE)


def test_four_coefficients_and_none(tmp_path):
    path = written(tmp_path / "four.yml", matrix_of(BENT.source), [BENT.lens[:4]], names=("K", "D"))
    assert read_camera(path)[0].lens == Lens(*BENT.lens[:4], 0.0)
    assert read_camera(written(tmp_path / "none.yml", matrix_of(BENT.source), None))[0].lens is None


@pytest.mark.parametrize("matrix, lens, words", [
    ([[1, 2], [3, 4]], [0] * 5, "not 3 by 3"), ([[100, 1, 5], [0, 100, 5], [0, 0, 1]], [0] * 5, "skew"),
    ([[-1, 0, 5], [0, 100, 5], [0, 0, 1]], [0] * 5, "focal length"), (matrix_of(BENT.source), [0.1] * 8, "more coefficients"),
    (matrix_of(BENT.source), [0.1] * 3, "k1, k2, p1, p2, k3")])
def test_what_is_wrong_with_a_camera_file_is_said(tmp_path, matrix, lens, words):
    with pytest.raises(Unanswered, match=words):
        read_camera(written(tmp_path / "camera.yml", matrix, [lens]))


@pytest.mark.parametrize("suffix", [".yml", ".json", ".xml"])
def test_a_fisheye_is_told_by_its_model(tmp_path, suffix):
    column = np.array([ROUND.lens]).T
    path = written(tmp_path / f"fisheye{suffix}", matrix_of(ROUND.source), column, SIZE, fisheye=1, rectified=matrix_of(ROUND.rectified))
    assert read_camera(path) == (FISHEYE, SIZE)
    path = written(tmp_path / f"other{suffix}", matrix_of(ROUND.source), column, fisheye=0)
    assert read_camera(path)[0].lens == Lens(*ROUND.lens, 0.0)


@pytest.mark.parametrize("lens", [None, [0.1] * 5, [0.1] * 3, [0.1, 0, 0, np.inf]])
def test_what_is_wrong_with_a_fisheye_is_said(tmp_path, lens):
    with pytest.raises(Unanswered, match="is of a fisheye, and its distortion coefficients are not k1, k2, k3, k4"):
        read_camera(written(tmp_path / "camera.yml", matrix_of(ROUND.source), None if lens is None else [lens], fisheye=1))


@pytest.mark.parametrize("contents", ["", "%YAML:1.0\n---\nother: 1\n", "{]", "no camera"])
def test_a_file_that_is_no_camera_is_said(archive, contents):
    path = archive.add("camera.yml", contents.encode())
    assert archive.measure(archive.home / "find.png", "--camera", path) == 2
    assert "the camera file" in archive.complained and "Traceback" not in archive.complained
    assert archive.measure(archive.home / "find.png", "--camera", archive.home / "none.yml") == 2
    assert "is not there" in archive.complained


def test_places_go_through_the_lens_and_back():
    places = np.random.default_rng(2).uniform(0, 400, (50, 2))
    assert to_source(CAMERA, to_rectified(CAMERA, places)) == pytest.approx(places, abs=1e-5)
    assert to_rectified(None, places) is places
    with pytest.raises(Unanswered, match="no counterpart"):
        to_rectified(Camera(CAMERA.source, CAMERA.rectified, Lens(-9, 0, 0, 0, 0)), places)


def test_places_go_through_the_fisheye_and_back():
    places = np.append(np.random.default_rng(2).uniform(0, 400, (50, 2)), [ROUND.source[2:]], axis=0)
    straight = to_rectified(FISHEYE, places)
    assert to_source(FISHEYE, straight) == pytest.approx(places, abs=1e-5)
    assert to_source(FISHEYE, straight) == pytest.approx(distorted(ROUND, straight), abs=1e-9)
    theirs = [trufolmesca.rectified_to_source(FISHEYE, *place) for place in straight]
    assert to_source(FISHEYE, straight) == pytest.approx(np.array(theirs), abs=1e-9)
    with pytest.raises(Unanswered, match="no counterpart"):
        to_rectified(FISHEYE, np.array([[1500.0, 200.0]]))
    assert np.isnan(to_source(Camera(FISHEYE.source, FISHEYE.rectified, Fisheye(-9, 0, 0, 0)), np.array([[800.0, 200.0]]))).all()


def test_a_label_through_a_fisheye(archive):
    made = render(Label("ROUND"), quad((150, 130), side=180, angle=10), SIZE, blur=0.9, noise=2, camera=ROUND)
    camera = written(archive.home / "camera.yml", matrix_of(ROUND.source), [ROUND.lens], SIZE, fisheye=1,
                     rectified=matrix_of(ROUND.rectified))
    assert archive.measure(archive.add("find.png", made.picture), "--camera", camera) == 0
    record = archive.record("find")
    assert distance(record["corners"], made.corners) < 0.1
    assert list(record["request"]["camera"]["lens"].values()) == list(ROUND.lens) and "k4" in record["request"]["camera"]["bits"]["lens"]
    assert archive.verify() == 0


def test_a_label_through_a_lens(archive):
    made = bent_photograph()
    camera = written(archive.home / "camera.json", matrix_of(BENT.source), [BENT.lens], SIZE)
    assert archive.measure(archive.add("find.png", made.picture), "--camera", camera, "--side-mm", 20) == 0
    record = archive.record("find")
    assert distance(record["corners"], made.corners) < 0.1
    assert distance(record["answer"]["corners"], made.corners) > 1
    assert record["request"]["camera"]["lens"]["k1"] == BENT.lens[0] and len(record["request"]["camera"]["bits"]) == 3
    assert archive.verify() == 0
    given, = measure(archive.home / "find.png", Options(corners=made.corners + 0.8, camera=CAMERA))
    assert distance(given.corners, made.corners) < 0.1
    assert distance(refine_picture(made.picture, made.corners, made.grid, camera=CAMERA).corners, made.corners) < 0.1


def test_a_camera_for_pictures_of_another_size_is_refused(archive):
    made = bent_photograph()
    camera = written(archive.home / "camera.yml", matrix_of(BENT.source), [BENT.lens], (4000, 3000))
    assert archive.measure(archive.add("find.png", made.picture), "--camera", camera) == 1
    assert "for pictures of 4000 by 3000 pixels" in archive.said
