"""The report of a folder: index.html, made from the records and pictures in it, whole in itself.

    write_report(Path("out"))        reads out/*.json and the PNGs beside them, writes out/index.html and returns its path

A record that cannot be read becomes a row that says so. The page asks nothing of the network: style and script are in it, and so is a
small picture of each label; its links go to the files beside it.
"""
import base64
import json
import math
import os
from dataclasses import dataclass, field
from pathlib import Path
from typing import Any, Dict, List, Optional, Tuple
from urllib.parse import quote

import cv2
import jinja2
import numpy as np

from tool import Unanswered
from tool.settings import other_than_defaults, recorded_settings

TEMPLATE = Path(__file__).with_name("report.html")
PAGE = "index.html"
SMALL = 280  # pixels of the picture that the page itself holds: sharp on any screen, and 200 labels make a page of some 5 MB
ANSWERED, DOUBTFUL, REFUSED, DAMAGED = "answered", "doubtful", "refused", "damaged"
FILES = (("blanked", "copy"), ("sheet", "sheet"), ("overlay", "overlay"))
SIDES = ("top", "right", "bottom", "left")
CORNERS = ("top left", "top right", "bottom right", "bottom left")


class Damaged(Exception):
    """A record that cannot be shown, with the reason in words."""


@dataclass
class Link:
    """A file beside the page, under the word that the reader sees."""
    word: str
    address: str


@dataclass
class Row:
    """What the page says of one record."""
    name: str
    state: str
    word: str
    photo: str = ""
    text: Optional[str] = None
    number: Optional[int] = None
    refined: Optional[int] = None
    repeatable: Optional[bool] = None
    spread: Optional[float] = None
    module: Optional[float] = None
    sigma: Optional[float] = None
    prepared: str = ""
    settings: str = ""
    scale: Optional[float] = None
    read: Optional[int] = None
    part: Optional[float] = None
    warnings: List[str] = field(default_factory=list)
    corners: List[Dict[str, Any]] = field(default_factory=list)
    edges: List[Dict[str, Any]] = field(default_factory=list)
    links: List[Link] = field(default_factory=list)
    picture: Optional[str] = None
    overlay: Optional[str] = None
    facts: List[Tuple[str, str]] = field(default_factory=list)


def write_report(directory: Path) -> Path:
    """Writes the folder's index.html and returns its path."""
    directory = Path(directory)
    rows = [read_row(path) for path in sorted(directory.glob("*.json"), key=lambda path: natural(path.stem))]
    page = directory / PAGE
    unfinished = directory / f".{PAGE}.{os.getpid()}"
    try:
        unfinished.write_bytes(drawn(directory, rows).encode("utf-8", "replace"))
        unfinished.replace(page)
    finally:
        unfinished.unlink(missing_ok=True)
    return page


def drawn(directory: Path, rows: List[Row]) -> str:
    """The page of these rows."""
    world = jinja2.Environment(autoescape=True, trim_blocks=True, lstrip_blocks=True, undefined=jinja2.StrictUndefined)
    world.filters["thousands"] = lambda number: f"{number:,}"
    counts = {state: sum(row.state == state for row in rows) for state in (ANSWERED, DOUBTFUL, REFUSED, DAMAGED)}
    others = [Link(name, address(name)) for name in ("summary.csv",) if (directory / name).is_file()]
    worst = max((row.spread for row in rows if row.state != REFUSED and row.spread is not None), default=None)
    page = world.from_string(TEMPLATE.read_text("utf-8"))
    return page.render(title=directory.resolve().name, rows=rows, counts=counts, others=others, worst=worst)


def read_row(path: Path) -> Row:
    """The row of one record, or one that says what is wrong with it."""
    links = [Link("record", address(path.name))]
    try:
        row = row_of(path, parsed(path))
    except Damaged as reason:
        return Row(path.stem, DAMAGED, f"the record cannot be read: {reason}", links=links)
    row.links = links + row.links
    return row


def parsed(path: Path) -> Dict[str, Any]:
    """A record's contents."""
    try:
        record = json.loads(path.read_text("utf-8"))
    except OSError as error:
        raise Damaged(error.strerror or "the file cannot be opened") from error
    except (ValueError, RecursionError) as error:
        raise Damaged("it is no JSON") from error
    if not isinstance(record, dict):
        raise Damaged("it is no record")
    if not isinstance(record.get("number", ""), (int, type(None))) or not isinstance(record.get("word"), str):
        raise Damaged("it has no number and word of a measurement")
    return record


def row_of(path: Path, record: Dict[str, Any]) -> Row:
    """The row of a record whose number and word are there; the number is null where the library was not asked."""
    request, prepare = part_of(record, "request"), part_of(record, "prepare")
    flags = record.get("refined") if isinstance(record.get("refined"), list) else []
    row = Row(path.stem, REFUSED, record["word"], photo=string(record.get("photo")) or path.stem, number=record["number"])
    row.text = string(record.get("text"))
    row.repeatable = record.get("repeatable") is True
    row.warnings = [warning for warning in listed(record.get("warnings")) if isinstance(warning, str)]
    row.spread, row.module, row.sigma = finite(record.get("spread_px")), finite(record.get("module_px")), finite(prepare.get("sigma_px"))
    row.prepared = string(prepare.get("sentence")) or ""
    row.refined = sum(flag is True for flag in flags) if row.number == 0 else None
    row.scale = mean(record.get("px_per_mm"))
    row.read, row.part = read_of(record, request)
    row.corners, row.edges = corners_of(record, flags), edges_of(record)
    row.facts = facts_of(record, request)
    name_settings(row, request)
    if row.number == 0 and not row.corners:
        row.warnings.append("The record's corners are not four pairs of numbers.")
    attach(row, path.parent, part_of(record, "files"))
    row.state = state_of(row)
    return row


def state_of(row: Row) -> str:
    """Whether a measurement was refused, is to be looked at, or stands."""
    if row.number != 0:
        return REFUSED
    return ANSWERED if row.refined == 4 and row.repeatable and not row.warnings else DOUBTFUL


def corners_of(record: Dict[str, Any], flags: List[Any]) -> List[Dict[str, Any]]:
    """The corners with their names, or none where the record has no four pairs of numbers."""
    pairs = [[finite(value) for value in listed(pair)] for pair in listed(record.get("corners"))]
    if len(pairs) != 4 or any(len(pair) != 2 or None in pair for pair in pairs):
        return []
    known = [flag is True for flag in flags] + [False] * 4
    return [dict(name=name, x=x, y=y, refined=refined) for name, (x, y), refined in zip(CORNERS, pairs, known)]


def edges_of(record: Dict[str, Any]) -> List[Dict[str, Any]]:
    """Of each side how many points were probed, stand in its line and were dropped, and its pixels per millimetre."""
    edges = listed(part_of(record, "answer").get("edges"))
    if record["number"] != 0 or len(edges) != 4 or not all(isinstance(edge, dict) for edge in edges):
        return []
    scales = listed(record.get("px_per_mm")) + [None] * 4
    return [dict(name=name, probed=edge.get("probed", "?"), fit=edge.get("fit", "?"), dropped=edge.get("dropped", "?"),
                 valid=bool(edge.get("valid")), scale=finite(scale)) for name, edge, scale in zip(SIDES, edges, scales)]


def read_of(record: Dict[str, Any], request: Dict[str, Any]) -> Tuple[Optional[int], Optional[float]]:
    """How many pixels were read, and which part of the photograph that is in per cent."""
    read, width, height = (finite(value) for value in (record.get("read"), request.get("width"), request.get("height")))
    if read is None:
        return None, None
    return int(read), 100 * read / (width * height) if width and height else None


def facts_of(record: Dict[str, Any], request: Dict[str, Any]) -> List[Tuple[str, str]]:
    """What else a reader may want to know of a record, as pairs of word and value."""
    grid = listed(request.get("grid"))
    polarity = "light on dark" if request.get("inverted") else "dark on light"
    versions = ", ".join(f"{name} {str(value)[:16]}" for name, value in part_of(record, "versions").items())
    facts = [("photograph", f"{request.get('width')} by {request.get('height')} pixels" if request else None),
             ("label", f"{len(grid)} by {len(grid)} modules, {polarity}" if grid else None),
             ("rough corners", {"decoder": "found by the decoder", "given": "given by hand"}.get(str(record.get("rough_from")))),
             ("camera", "through a camera file" if request.get("camera") else None),
             ("photograph's SHA-256", string(record.get("photo_sha256"))),
             ("copy's SHA-256", string(record.get("copy_sha256"))),
             ("versions", versions or None)]
    return [(word, value) for word, value in facts if value]


def name_settings(row: Row, request: Dict[str, Any]) -> None:
    """Names the settings that are not the defaults, or says that they cannot be read."""
    try:
        settings = recorded_settings(request)
    except Unanswered as why:
        row.warnings.append(f"The record's settings are damaged: {why}.")
    else:
        row.settings = other_than_defaults(settings) if settings else ""


def attach(row: Row, directory: Path, files: Dict[str, Any]) -> None:
    """Links the row's pictures that lie in the folder, and says which are missing."""
    for key, word in FILES:
        name = files.get(key)
        if name is None:
            continue
        if not isinstance(name, str) or name in ("", ".", "..") or "/" in name or "\0" in name:
            row.warnings.append(f"The record names no file of this folder as its {word}.")
        elif not is_there(directory / name):
            row.warnings.append(f"The {word} {name} is missing in this folder.")
        else:
            row.links.append(Link(word, address(name)))
            if key == "overlay":
                row.overlay, row.picture = address(name), thumbnail(directory / name)


def is_there(path: Path) -> bool:
    """Whether there is such a file, whatever its name."""
    try:
        return path.is_file()
    except (OSError, ValueError):
        return False


def thumbnail(path: Path) -> Optional[str]:
    """A small picture of an overlay that goes into the page itself, or None where it cannot be read."""
    picture = cv2.imdecode(np.fromfile(path, np.uint8), cv2.IMREAD_COLOR) if path.stat().st_size else None
    if picture is None:
        return None
    scale = SMALL / max(picture.shape[:2])
    if scale < 1:
        picture = cv2.resize(picture, None, fx=scale, fy=scale, interpolation=cv2.INTER_AREA)
    done, packed = cv2.imencode(".jpg", picture, [cv2.IMWRITE_JPEG_QUALITY, 82])
    return "data:image/jpeg;base64," + base64.b64encode(packed.tobytes()).decode("ascii") if done else None


def address(name: str) -> str:
    """A link to a file beside the page, whatever its name holds."""
    return "./" + quote(os.fsencode(name))


def natural(name: str) -> List[Tuple[int, int, str]]:
    """A key by which find-2 comes before find-10."""
    parts, digits = [], ""
    for letter in name + "\0":
        if letter.isdecimal():
            digits += letter
            continue
        if digits:
            parts.append((0, int(digits), ""))
            digits = ""
        parts.append((1, 0, letter.lower()))
    return parts


def part_of(record: Dict[str, Any], key: str) -> Dict[str, Any]:
    """A record's part, empty where it has none."""
    part = record.get(key)
    return part if isinstance(part, dict) else {}


def listed(value: Any) -> List[Any]:
    """A list, empty where the value is none."""
    return value if isinstance(value, list) else []


def string(value: Any) -> Optional[str]:
    """A text, or None where the value is none."""
    return value if isinstance(value, str) else None


def finite(value: Any) -> Optional[float]:
    """A finite number, or None where the value is none."""
    if isinstance(value, bool) or not isinstance(value, (int, float)):
        return None
    try:
        return value if math.isfinite(float(value)) else None
    except OverflowError:
        return None


def mean(values: Any) -> Optional[float]:
    """The mean of a list of numbers, or None where it is none."""
    numbers = [finite(value) for value in listed(values)]
    return sum(numbers) / len(numbers) if numbers and None not in numbers else None
