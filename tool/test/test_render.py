"""The rendered photographs: their corners are where they say, and a decoder reads them."""
import cv2
import numpy as np
import pytest
import zxingcpp

from tool.render import Camera, Label, coverage, distorted, encoded, quad, render, undistorted


def texts(picture):
    """What a decoder reads on a picture."""
    return [found.text for found in zxingcpp.read_barcodes(picture)]


@pytest.mark.parametrize("version", [1, 2, 7, 20, 40])
def test_a_decoder_reads_every_version(version):
    label = Label("FIND 1234", version)
    side = 5 * label.dim
    picture, _, grid = render(label, quad((side * 0.75, side * 0.75), side, angle=3), (side * 3 // 2, side * 3 // 2))
    assert texts(picture) == ["FIND 1234"]
    assert grid.shape == (label.dim, label.dim) and Label.of_dim(label.dim) == label


@pytest.mark.parametrize("shift", [0.0, 0.13, 0.5, 0.87])
@pytest.mark.parametrize("angle", [0.0, 7.0, 90.0])
def test_the_ink_lies_where_the_corners_say(shift, angle):
    """The dark pixels have the area and the centre of mass of the dark modules."""
    label = Label()
    side, middle = 126.0, np.array([100.0 + shift, 90.0 - shift])
    ink = coverage(label, quad(middle, side, angle), (200, 180)).ink
    rows, columns = np.nonzero(label.grid)
    centre = (np.column_stack([columns, rows]) + 0.5 - label.dim / 2) * side / label.dim
    turn = np.deg2rad(angle)
    centre = centre @ np.array([[np.cos(turn), np.sin(turn)], [-np.sin(turn), np.cos(turn)]])
    ys, xs = np.mgrid[0:180, 0:200]
    seen = np.array([(ink * xs).sum(), (ink * ys).sum()]) / ink.sum()
    assert ink.sum() == pytest.approx(label.grid.sum() * (side / label.dim) ** 2, rel=2e-3)
    assert np.abs(seen - (middle + centre.mean(axis=0))).max() < 5e-3


def test_the_corners_are_those_of_the_outermost_modules():
    """An upright label from 19.5 to 61.5 covers the pixels 20 to 61 whole, whose centres are whole numbers."""
    corners = [(19.5, 19.5), (61.5, 19.5), (61.5, 61.5), (19.5, 61.5)]
    picture, known, grid = render(Label(), corners, (82, 82), blur=0)
    assert np.array_equal(picture[20:62, 20:62] < 100, np.kron(grid, np.ones((2, 2))) == 1)
    assert np.array_equal(known, corners)
    assert (picture[19, 20:62] == 220).all() and (picture[11, 20:62] == 150).all()


def test_the_lens_is_the_one_of_opencv_and_its_inverse_undoes_it():
    camera = Camera.of_size((800, 600))
    fx, fy, cx, cy = camera.source
    places = np.random.default_rng(1).uniform((0, 0), (800, 600), (50, 2))
    flat = np.column_stack([(places - [cx, cy]) / [fx, fy], np.ones(50)])
    theirs, _ = cv2.projectPoints(flat, np.zeros(3), np.zeros(3), np.array([[fx, 0, cx], [0, fy, cy], [0, 0, 1]]), np.array(camera.lens))
    assert np.abs(distorted(camera, places) - theirs[:, 0]).max() < 1e-9
    assert np.abs(undistorted(camera, distorted(camera, places)) - places).max() < 1e-7


def test_the_fisheye_is_the_one_of_opencv_and_its_inverse_undoes_it():
    camera = Camera((300, 310, 399.5, 299.5), (200, 220, 390, 310), (0.02, -0.01, 0.004, -0.001))
    places = np.append(np.random.default_rng(1).uniform((-300, -300), (1100, 900), (50, 2)), [[390, 310]], axis=0)
    flat = (places - [390, 310]) / [200, 220]
    matrix = np.array([[300, 0, 399.5], [0, 310, 299.5], [0, 0, 1]])
    theirs = cv2.fisheye.distortPoints(flat[:, None], matrix, np.array(camera.lens))
    assert np.abs(distorted(camera, places) - theirs[:, 0]).max() < 1e-9
    assert np.abs(undistorted(camera, distorted(camera, places)) - places).max() < 1e-7


def test_a_lens_moves_the_corners_and_bends_the_picture():
    camera, corners = Camera.of_size((400, 300)), quad((250, 180), 150, 5, 10)
    picture, known, _ = render(Label(), corners, (400, 300), camera=camera)
    assert np.allclose(known, distorted(camera, corners)) and np.abs(known - corners).max() > 1
    assert texts(picture) == ["FIND 1234"]


def test_inverted_colour_noise_and_seed():
    corners = quad((100, 100), 120, 4)
    plain, other = render(Label(), corners, (200, 200), 0), render(Label(inverted=True), corners, (200, 200), 0)
    assert np.array_equal(plain.grid, other.grid)
    assert plain.picture[100, 5] == other.picture[100, 5] == 150
    assert (plain.picture[60:140, 60:140].astype(int) + other.picture[60:140, 60:140]).ptp() <= 1
    colour = render(Label(light=(200, 220, 240)), corners, (200, 200), background=(40, 80, 120)).picture
    assert colour.shape == (200, 200, 3) and colour[0, 0].tolist() == [40, 80, 120]
    noisy = [render(Label(), corners, (200, 200), noise=3, seed=seed).picture for seed in (1, 1, 2)]
    assert np.array_equal(noisy[0], noisy[1]) and not np.array_equal(noisy[0], noisy[2])


def test_what_cannot_be_rendered_is_said():
    with pytest.raises(ValueError, match="23 modules"):
        Label.of_dim(23)
    with pytest.raises(ValueError, match="does not fit"):
        encoded("x" * 500, 1)
    with pytest.raises(ValueError, match="folds"):
        render(Label(), quad((100, 100), 150), (200, 200), camera=Camera.of_size((200, 200), (-3.0, 0, 0, 0, 0)))
    with pytest.raises(ValueError, match="background"):
        render(Label(), quad((100, 100), 150), (200, 200), background=np.zeros((5, 5)))
