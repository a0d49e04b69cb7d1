"""One photograph: find its labels, prepare the picture, refine the corners, and see whether they repeat."""
from __future__ import annotations

import math
from dataclasses import asdict, dataclass
from pathlib import Path

import cv2
import numpy as np
from trufolmesca import Answer, Camera, Number, Refused, Settings

from tool import Unanswered, label, printable
from tool.blur import expected_error, module_blur
from tool.camera import to_rectified
from tool.label import MOST_DISAGREEING, PATTERN_AGREEMENT
from tool.photograph import Photograph, read_photograph
from tool.record import Record, bits_of_corners, camera_as_json, settings_as_json
from tool.refinement import in_photograph, px_per_mm, refine, run_marking

REPEATED_RUNS = 4
MOVED_MODULES = 0.15       # how far a repeated run's corners are moved: inside what the refinement bears, and visible
MOST_SPREAD_PX = 0.1       # above this an answer depends on where it began, so it is marked 'not repeatable'
SMOOTHING_MODULES = 0.12   # a Gaussian that gave 0.018 to 0.043 pixel where the plain run gave 0.7 to 4.6
ROUGH_SEED = 20260         # the repeated runs begin at the same places each time
# The refinement's samples are half a module apart, so a sharp edge falls between two of them. bench/accuracy/sharpness, on 576
# labels: where label.edge_blur is below 0.07 module the farthest corner is off by 0.08 to 1.9 pixels at the median, 12 at most; from
# 0.07 to 0.12 by 0.03 and 0.12; smoothed, by 0.02 and 0.09 in both. 0.01 is added to be safe.
TOO_SHARP_MODULES = 0.08
# The warning leaves that 0.01 out: under the refined corners the blur measures a hair less than under the rough ones, and what auto
# left as it is must not be sent back to auto.
SURELY_SHARP_MODULES = 0.07

NOT_REPEATABLE = "Not repeatable: from rough corners moved by {moved} module the answer moves by {spread:.2f} pixel."
REPEAT_REFUSED = "Not repeatable: from rough corners moved by {moved} module one of the runs is refused."
PARTLY = "Only {count} of the four corners were refined; the others are as rough as they came."
SHARP = ("The label is too sharp for its size (its edges are blurred by {blur:.3f} module): the corners can be wrong by pixels. "
         "Measure with --prepare auto.")
BLURRED = ("The label is too blurred for its size (by {blur:.2f} module): the corners are off by some {error:.1f} pixel, "
           "although they repeat.")
MARGIN = ("The label has no bare margin of two modules all around (a shadow, a cut edge or print lies there): the corners can be "
          "wrong by more than they repeat to.")
BACKWARDS = ("The corners go round against the clock: they were given in another order than top left, top right, "
             "bottom right, bottom left, or the photograph is mirrored.")


@dataclass(frozen=True)
class Options:
    """What a person asked for; corners are in the photograph's pixels, and without settings the defaults measure."""

    corners: np.ndarray | None = None
    grid: np.ndarray | None = None
    camera: Camera | None = None
    camera_size: tuple[int, int] | None = None
    side_mm: float | None = None
    inverted: bool = False
    prepare: str | float = "auto"
    settings: Settings | None = None


@dataclass(frozen=True)
class Request:
    """One label to be refined: rough corners in the photograph's pixels, modules, polarity, camera, settings."""

    rough: np.ndarray
    grid: np.ndarray
    inverted: bool = False
    camera: Camera | None = None
    rough_from: str = "given"
    text: str | None = None
    settings: Settings | None = None

    @property
    def corners(self) -> np.ndarray:
        """The rough corners as they are handed to the call: behind a camera in rectified pixels."""
        return to_rectified(self.camera, self.rough)

    @property
    def module_px(self) -> float:
        """The side of a module of the rough label, along its shortest edge."""
        return label.module_side(self.rough, len(self.grid))


def measure(photo_path: Path | str, options: Options = Options()) -> list[Record]:
    """The labels of a photograph, each measured; one record without corners where there is no answer."""
    path = Path(photo_path)
    try:
        photograph = read_photograph(path)
    except Unanswered as why:
        return [Record(why.number, str(why), printable(path.name))]
    try:
        _check_camera_size(photograph, options)
        requests = [_given(photograph.grey, options)] if options.corners is not None else _decoded(photograph.grey, options)
    except Unanswered as why:
        return [_refusal(photograph, why)]
    return [_measured(photograph, request, options) for request in requests]


def _refusal(photograph: Photograph, why: Unanswered) -> Record:
    """The record of a photograph, or of a label on it, that has no answer."""
    return Record(why.number, str(why), photograph.name, photograph.sha256, warnings=list(photograph.warnings))


def _check_camera_size(photograph: Photograph, options: Options) -> None:
    """Refuses a camera that was calibrated on pictures of another size."""
    height, width = photograph.grey.shape
    if options.camera_size not in (None, (width, height)):
        raise Unanswered("the camera file is for pictures of {} by {} pixels".format(*options.camera_size)
                         + f", and this one has {width} by {height}")


def _measured(photograph: Photograph, request: Request | Unanswered, options: Options) -> Record:
    """The record of one label."""
    if isinstance(request, Unanswered):
        return _refusal(photograph, request)
    try:
        record = _refined(photograph.grey, request, *preparation(photograph.grey, request, options.prepare))
    except Refused as refusal:
        return _refusal(photograph, Unanswered(refusal.word, refusal.number))
    record.photo, record.photo_sha256 = photograph.name, photograph.sha256
    record.warnings = [*photograph.warnings, *record.warnings]
    record.prepare["sentence"] = " ".join([*photograph.conversions, record.prepare["sentence"]])
    if options.side_mm is not None:
        record.side_mm = options.side_mm
        if record.corners is not None:
            record.px_per_mm = px_per_mm(np.array(record.corners), options.side_mm).tolist()
    return record


def refine_picture(grey: np.ndarray, rough_corners: np.ndarray, grid: np.ndarray, inverted: bool = False,
                   camera: Camera | None = None, sigma: float | str = 0.0, settings: Settings | None = None) -> Record:
    """One label of a grey picture, refined from rough corners, without any file; sigma as --prepare takes it."""
    request = Request(np.asarray(rough_corners, float).reshape(4, 2), np.asarray(grid, np.uint8), inverted, camera, settings=settings)
    return _refined(grey, request, *preparation(grey, request, "off" if sigma == 0 else sigma))


def _given(grey: np.ndarray, options: Options) -> Request:
    """The label whose rough corners were given, with the grid as given or as the picture shows it."""
    if options.grid is not None:
        return _by_hand(options, options.grid, options.inverted)
    corners = to_rectified(options.camera, options.corners)
    for inverted in (True,) if options.inverted else (False, True):
        reading = label.read_grid(grey, corners, options.camera, inverted)
        if reading.agreement >= PATTERN_AGREEMENT:
            return _by_hand(options, reading.grid, inverted)
    raise Unanswered(_unread(grey, corners, options))


def _by_hand(options: Options, grid: np.ndarray, inverted: bool) -> Request:
    """The label whose rough corners were given, with these modules."""
    return Request(options.corners, grid, inverted, options.camera, text=label.text_of(grid), settings=options.settings)


def _unread(grey: np.ndarray, corners: np.ndarray, options: Options) -> str:
    """Why no modules were read under given corners: the first is another one, or these are not a label's corners."""
    for turn in (1, 2, 3):
        turned = np.roll(corners, -turn, axis=0)
        if label.read_grid(grey, turned, options.camera, options.inverted).agreement >= PATTERN_AGREEMENT:
            x, y = options.corners[turn]
            return (f"the corners are in the wrong order: the label's top left corner is the one given as {x:g} {y:g} "
                    "(its three large squares stand at top left, top right and bottom left)")
    return ("no label is to be read under these corners: its finder and timing patterns are not there. "
            "Are the corners top left, top right, bottom right, bottom left, and within a quarter of a module?")


def _decoded(grey: np.ndarray, options: Options) -> list[Request | Unanswered]:
    """The labels that the decoder found, each with the grid as the picture shows it."""
    found = label.decode(grey, True if options.inverted else None, options.camera)
    if not found:
        raise Unanswered("no QR label was found: give its rough corners by --corners")
    if options.grid is not None and len(found) > 1:
        raise Unanswered(f"--grid is for one label, and {len(found)} were found: give one's rough corners by --corners")
    return [_request_of(grey, one, options) for one in found]


def _request_of(grey: np.ndarray, found: label.Found, options: Options) -> Request | Unanswered:
    """A label that was decoded: its modules, and its corners fitted to them."""
    try:
        corners = to_rectified(options.camera, found.corners)
    except Unanswered as why:
        return why
    reading = label.read_grid(grey, corners, options.camera, found.inverted)
    if reading.agreement < PATTERN_AGREEMENT:
        return Unanswered(f"the modules of the label '{printable(found.text)}' could not be read: {100 * reading.agreement:.0f} % "
                          "of its finder and timing patterns agree")
    fitted = label.fitted(grey, corners, reading.grid, options.camera, found.inverted)
    again = label.read_grid_of(grey, fitted, len(reading.grid), options.camera, found.inverted)
    if again.agreement < reading.agreement:
        fitted, again = corners, reading
    grid = again.grid if options.grid is None else options.grid
    rough = label.to_source(options.camera, fitted)
    return Request(rough, grid, found.inverted, options.camera, "decoder", found.text, options.settings)


def preparation(grey: np.ndarray, request: Request, wish: str | float) -> tuple[float, str]:
    """The Gaussian by which the picture is smoothed first, in pixels, and a sentence that says so."""
    if wish == "off":
        return 0.0, "The picture was refined as it is."
    if wish != "auto":
        return float(wish), f"The picture was smoothed by a Gaussian of {float(wish):g} pixels, as was asked for."
    blur = label.edge_blur(grey, request.corners, request.grid, request.camera)
    if math.isnan(blur) or blur >= TOO_SHARP_MODULES:
        return 0.0, "The picture was refined as it is."
    sigma = round(SMOOTHING_MODULES * request.module_px, 3)
    return sigma, (f"The label is too sharp for its size (its edges are blurred by {blur:.3f} module), so the picture was "
                   f"smoothed by a Gaussian of {sigma:g} pixels; the blanked copy is of the smoothed picture.")


def smoothed(grey: np.ndarray, sigma: float) -> np.ndarray:
    """The picture smoothed by a Gaussian, cut off at four deviations."""
    if sigma == 0:
        return grey
    size = 2 * math.ceil(4 * sigma) + 1
    return cv2.GaussianBlur(grey, (size, size), sigma)


def _refined(grey: np.ndarray, request: Request, sigma: float, sentence: str) -> Record:
    """The record of one refinement: answer, spread, warnings, and the pictures."""
    picture, corners = smoothed(grey, sigma), request.corners
    run = run_marking(picture, request.grid, corners, request.inverted, request.camera, request.settings)
    answer = run.answer
    record = Record(run.number, run.word, "", text=request.text, module_px=request.module_px,
                    rough=request.rough.tolist(), rough_from=request.rough_from,
                    request=_request_as_json(picture, request, corners), answer=_answer_as_json(answer),
                    prepare={"sigma_px": sigma, "sentence": sentence},
                    read=None if run.marks is None else int(run.marks.sheet.sum()), marks=run.marks, prepared=picture)
    if run.number != Number.ANSWER:
        return record
    places = in_photograph(request.camera, answer.corners)
    record.corners, record.refined = places.tolist(), list(answer.refined)
    record.spread_px, refusals = _spread(picture, request, corners, places)
    record.repeatable = refusals == 0 and record.spread_px <= MOST_SPREAD_PX
    record.warnings = [*_repeat_warnings(record, refusals), *_blur_warnings(picture, request, answer),
                       *_shape_warnings(grey, request, answer)]
    return record


def _spread(picture: np.ndarray, request: Request, corners: np.ndarray, places: np.ndarray) -> tuple[float, int]:
    """How far the corners of repeated runs lie from the answer's, at most, and how many runs were refused."""
    reach = MOVED_MODULES * label.module_side(corners, len(request.grid))
    moves = np.random.default_rng(ROUGH_SEED).uniform(-reach, reach, (REPEATED_RUNS, 4, 2))
    spread, refusals = 0.0, 0
    for move in moves:
        try:
            again = refine(picture, request.grid, corners + move, request.inverted, request.camera, request.settings)
        except Refused:
            refusals += 1
            continue
        distances = np.linalg.norm(in_photograph(request.camera, again.corners) - places, axis=1)
        spread = max(spread, float(distances.max()))
    return spread, refusals


def _repeat_warnings(record: Record, refusals: int) -> list[str]:
    """What is to be said of the repeated runs and of corners that were not refined."""
    warnings = []
    if refusals:
        warnings.append(REPEAT_REFUSED.format(moved=MOVED_MODULES))
    elif not record.repeatable:
        warnings.append(NOT_REPEATABLE.format(moved=MOVED_MODULES, spread=record.spread_px))
    if not all(record.refined):
        warnings.append(PARTLY.format(count=sum(record.refined)))
    return warnings


def _blur_warnings(picture: np.ndarray, request: Request, answer: Answer) -> list[str]:
    """What is to be said where the label is too sharp, or so blurred that its corners move, which no repeated run shows."""
    sharpness = label.edge_blur(picture, answer.corners, request.grid, request.camera)
    if sharpness < SURELY_SHARP_MODULES:
        return [SHARP.format(blur=sharpness)]
    blur = module_blur(picture, answer.corners, request.grid, request.camera)
    error = expected_error(blur) * request.module_px
    return [BLURRED.format(blur=blur, error=error)] if error > MOST_SPREAD_PX else []


def _shape_warnings(grey: np.ndarray, request: Request, answer: Answer) -> list[str]:
    """What is to be said where the grid is not what the picture shows under the refined corners."""
    warnings = [BACKWARDS] if label.runs_backwards(answer.corners) else []
    if label.margin_disturbed(grey, answer.corners, request.grid, request.camera) > label.MOST_DISTURBED:
        warnings.append(MARGIN)
    shown = label.read_grid_of(grey, answer.corners, len(request.grid), request.camera, request.inverted).grid
    differing = label.disagreement(request.grid, shown)
    if differing > MOST_DISAGREEING:
        order = label.better_order(request.grid, shown)
        hint = (f"it agrees with the corners in another order: {order} of those given" if order
                else "the grid is of another label, or the corners are not the label's")
        warnings.append(f"The grid differs from the picture under the refined corners in {100 * differing:.0f} % "
                        f"of the modules: {hint}.")
    return warnings


def _request_as_json(picture: np.ndarray, request: Request, corners: np.ndarray) -> dict:
    """A request as NAME.json has it."""
    height, width = picture.shape
    return {
        "width": width, "height": height, "stride": width, "scale": [1.0, 1.0],
        "corners": corners.tolist(), "corners_bits": bits_of_corners(corners),
        "grid": ["".join(map(str, row)) for row in request.grid.tolist()],
        "inverted": request.inverted, "camera": camera_as_json(request.camera), "settings": settings_as_json(request.settings),
    }


def _answer_as_json(answer: Answer) -> dict:
    """An answer as NAME.json has it."""
    return {"corners": answer.corners.tolist(), "corners_bits": bits_of_corners(answer.corners),
            "edges": [asdict(edge) for edge in answer.edges]}
