"""The command line: measure, verify, report, smooth, card."""
from __future__ import annotations

import argparse
import math
import os
import sys
from pathlib import Path

import numpy as np
import trufolmesca
from trufolmesca import LibraryMissing, load_library

from tool import Unanswered, printable, reason
from tool.camera import read_camera
from tool.many import measure_many, write_summary
from tool.measure import Options
from tool.settings import read_settings

ANSWERED, SOME_REFUSED, BAD_USAGE, STOPPED = 0, 1, 2, 130

DESCRIPTION = """\
Measures the corners of QR labels on photographs to a fraction of a pixel, and writes a copy of each
photograph in which all that the corners do not rest on is painted over, so that it can be published
and anyone can run the measurement again on it.

  ./trufolmesca measure PHOTO.. --out DIR    measure photographs
  ./trufolmesca verify DIR                   run again over the published copies, and compare
  ./trufolmesca report DIR                   one page with all results, DIR/index.html
  ./trufolmesca smooth FILE.csv --window N   smooth the scan of a sherd's profile, with a plot
  ./trufolmesca card FILE                    say what a result card holds, in either form

docs/GUIDE.md explains the terms, and every number in words.
"""

MEASURE = """\
Finds the QR labels of each photograph and refines their corners. Any format that OpenCV reads is
taken: JPEG, TIFF, PNG and others, 8 or 16 bits, colour or grey, turned as EXIF says.

For each label it writes into DIR:
  NAME.json          corners, request, answer: all to run it again   (publish)
  NAME.blanked.png   the photograph, painted over where not read     (publish)
  NAME.sheet.png     white where a pixel was read                    (publish)
  NAME.overlay.png   the label enlarged, rough and refined corners   (shows part of the photograph)
and summary.csv, with a row for every NAME.json of DIR. A second label of a photograph is NAME-2.

Places are in pixels, x to the right and y down; the centre of the first pixel is (0, 0). Corners go
top left, top right, bottom right, bottom left, as the label is read.
"""

MEASURE_STATUS = "Exit status: 0 all answered, 1 some refused, 2 the command itself was wrong."

VERIFY = """\
Runs the refinement again over each published copy of DIR, alone, and demands the same corners to
the last bit, the same sheet and the same copy. It needs NAME.json, NAME.blanked.png and
NAME.sheet.png, and never the photograph.
"""

VERIFY_STATUS = "Exit status: 0 all the same, 1 something differs, in words, 2 the command itself was wrong."


SMOOTH = """\
Smooths a scan: each height becomes the mean, rounded down, of the N heights around it, or of those
among them that the scan has. All are worked out from the scan as it was.

FILE.csv has a record a line, its cells parted by commas, semicolons or tabs: a position and a
height, or a height alone; or more columns, of which one is headed `height` or named by --column.
Heights are whole numbers from 0 to 65535. A heading is optional, and lines that begin with # are
remarks. It writes FILE-smoothed.csv, which is the file with a column `smoothed_N` behind all others
and else unchanged, and FILE-smoothed.png, a plot of the heights before and after.
"""

CARD = """\
Says what a result card holds: its corners to the last bit, its flags, and the counts of its edges.
Either form is read: today's, of 105 bytes, and the older one, of 93, whose counts have a byte each.
With --newer or --older it is written in that form too; both ways lose nothing.
"""

CARD_STATUS = "Exit status: 0 said, 1 the card was refused, in words, 2 the command itself was wrong."

SMOOTH_STATUS = "Exit status: 0 smoothed, 1 the file was refused, in words, 2 the command itself was wrong."


class _Parser(argparse.ArgumentParser):
    """A parser that takes every negative number as a number: argparse takes -1e-3 for an option."""

    def parse_known_args(self, args=None, namespace=None):
        """Parses the words, those that are numbers below 0 with a space before them, which argparse takes for no option."""
        words = sys.argv[1:] if args is None else list(args)
        return super().parse_known_args([f" {word}" if _is_negative(word) else word for word in words], namespace)


def _is_negative(word: str) -> bool:
    """Whether a word of the command line is a number below 0."""
    try:
        float(word)
    except ValueError:
        return False
    return word.startswith("-")


def number(word: str) -> float:
    """A word as a finite number."""
    value = float(word)
    if not math.isfinite(value):
        raise argparse.ArgumentTypeError(f"{word.strip()} is not a finite number")
    return value


def positive(word: str) -> float:
    """A word as a number above 0."""
    value = number(word)
    if value <= 0:
        raise argparse.ArgumentTypeError(f"{word.strip()} is not above 0")
    return value


def worker_count(word: str) -> int:
    """A word as a number of workers."""
    if not word.strip().isdigit() or not 1 <= int(word) <= 512:
        raise argparse.ArgumentTypeError(f"{word.strip()} is not a number of workers, 1 to 512")
    return int(word)


def preparation(word: str) -> str | float:
    """auto, off, or a Gaussian in pixels."""
    if word in ("auto", "off"):
        return word
    try:
        sigma = float(word)
    except ValueError:
        raise argparse.ArgumentTypeError(f"{word} is not auto, off, or a Gaussian in pixels") from None
    if not 0 < sigma <= 50:
        raise argparse.ArgumentTypeError(f"{word.strip()} is not a Gaussian above 0 and up to 50 pixels")
    return sigma


def grid_file(word: str) -> np.ndarray:
    """The modules of a file with a row of 0 and 1 for each row of modules."""
    try:
        rows = Path(word).read_text(encoding="ascii").split()
    except (OSError, UnicodeDecodeError):
        raise argparse.ArgumentTypeError(f"the grid {word} cannot be read as a text file") from None
    if not 2 <= len(rows) <= 177 or any(len(row) != len(rows) or set(row) - set("01") for row in rows):
        raise argparse.ArgumentTypeError(f"the grid {word} is not a square of 2 to 177 rows of 0 and 1")
    return np.array([[int(module) for module in row] for row in rows], np.uint8)


def parser() -> argparse.ArgumentParser:
    """The command line's words."""
    raw = argparse.RawDescriptionHelpFormatter
    words = _Parser(prog="trufolmesca", description=DESCRIPTION, formatter_class=raw)
    words.add_argument("--version", action="version", version=f"%(prog)s {trufolmesca.__version__}")
    commands = words.add_subparsers(dest="command", required=True, metavar="measure | verify | report | smooth | card")
    _measure_words(commands.add_parser("measure", help="measure the labels of photographs", description=MEASURE,
                                       epilog=MEASURE_STATUS, formatter_class=raw))
    verify = commands.add_parser("verify", help="run again over the published copies", description=VERIFY,
                                 epilog=VERIFY_STATUS, formatter_class=raw)
    verify.add_argument("directory", type=Path, metavar="DIR", help="where measure wrote")
    report = commands.add_parser("report", help="write one page with all results",
                                 description="Writes DIR/index.html: one page with all results, which needs no other file. "
                                             "Writes DIR/summary.csv anew too, where several runs have filled DIR.")
    report.add_argument("directory", type=Path, metavar="DIR", help="where measure wrote")
    _smooth_words(commands.add_parser("smooth", help="smooth the scan of a sherd's profile", description=SMOOTH,
                                      epilog=SMOOTH_STATUS, formatter_class=raw))
    card = commands.add_parser("card", help="say what a result card holds", description=CARD, epilog=CARD_STATUS, formatter_class=raw)
    card.add_argument("file", type=Path, metavar="FILE", help="the result card")
    card.add_argument("--newer", type=Path, metavar="OUT", help="write it in today's form")
    card.add_argument("--older", type=Path, metavar="OUT", help="write it in the older form, where every count is at most 255")
    return words


def _measure_words(measure: argparse.ArgumentParser) -> None:
    """The options of measure."""
    measure.add_argument("photos", nargs="+", type=Path, metavar="PHOTO", help="a photograph")
    measure.add_argument("--out", required=True, type=Path, metavar="DIR", help="where to write; made if it is not there")
    measure.add_argument("--corners", nargs=8, type=number, metavar=("X0", "Y0", "X1", "Y1", "X2", "Y2", "X3", "Y3"),
                         help="rough corners, within a quarter of a module, instead of the decoder's")
    measure.add_argument("--grid", type=grid_file, metavar="FILE",
                         help="the label's modules, a row of 0 and 1 for each row, 1 dark; without it they are read off the picture")
    measure.add_argument("--camera", type=Path, metavar="FILE",
                         help="the camera and its lens (k1 k2 p1 p2 k3, or of a fisheye k1 k2 k3 k4), as OpenCV writes them: "
                              "YAML, JSON or XML")
    measure.add_argument("--side-mm", type=positive, metavar="MM", help="the label's side, for pixels per millimetre")
    measure.add_argument("--inverted", action="store_true", help="the labels are light on dark (otherwise found out)")
    measure.add_argument("--prepare", type=preparation, default="auto", metavar="auto|off|SIGMA",
                         help="smooth the picture first: auto, where the label is too sharp for its size (the default); "
                              "never; or always, by a Gaussian of SIGMA pixels. The copy is then of the smoothed picture")
    measure.add_argument("--settings", type=Path, metavar="FILE",
                         help="the numbers that the measurement goes by, as for a glossy label: a JSON object with some of the nine "
                              "settings (docs/GUIDE.md names them); the others are the defaults")
    measure.add_argument("--jobs", type=worker_count, metavar="N", help="photographs worked on at a time")


def _smooth_words(smooth: argparse.ArgumentParser) -> None:
    """The options of smooth."""
    smooth.add_argument("file", type=Path, metavar="FILE.csv", help="the scan")
    smooth.add_argument("--window", required=True, type=int, metavar="N",
                        help="over how many heights the mean goes: an odd number from 3 to 31")
    smooth.add_argument("--column", metavar="NAME", help="the heading of the heights' column, or its number from 1 on")
    smooth.add_argument("--out", type=Path, metavar="FILE", help="the table to write; the plot has .png for its ending")


def main(arguments: list[str] | None = None) -> int:
    """Runs a command and gives its exit status."""
    try:
        asked = parser().parse_args(arguments)
    except SystemExit as end:
        return BAD_USAGE if end.code else ANSWERED
    try:
        if asked.command != "report":
            load_library()  # said at once where it is missing, and not for each photograph
        return {"measure": _measure, "verify": _verify, "report": _report, "smooth": _smooth, "card": _card}[asked.command](asked)
    except (Unanswered, LibraryMissing) as why:
        print(f"trufolmesca: {printable(str(why))}", file=sys.stderr)
        return BAD_USAGE
    except KeyboardInterrupt:
        print("trufolmesca: stopped; what was written is whole", file=sys.stderr)
        return STOPPED
    except BrokenPipeError:
        os.dup2(os.open(os.devnull, os.O_WRONLY), sys.stdout.fileno())  # nobody reads on, as with `| head`
        return SOME_REFUSED
    except OSError as error:
        print(f"trufolmesca: {error.filename or asked.command}: {reason(error)}", file=sys.stderr)
        return SOME_REFUSED


def _measure(asked: argparse.Namespace) -> int:
    """The command measure."""
    camera, size = read_camera(asked.camera) if asked.camera else (None, None)
    settings = read_settings(asked.settings) if asked.settings else None
    corners = None if asked.corners is None else np.array(asked.corners).reshape(4, 2)
    options = Options(corners, asked.grid, camera, size, asked.side_mm, asked.inverted, asked.prepare, settings)
    try:
        asked.out.mkdir(parents=True, exist_ok=True)
    except OSError as error:
        raise Unanswered(f"the directory {asked.out} cannot be made: {reason(error)}") from None
    return ANSWERED if measure_many(asked.photos, asked.out, options, asked.jobs) else SOME_REFUSED


def _verify(asked: argparse.Namespace) -> int:
    """The command verify."""
    from tool.verify import verify_directory
    return ANSWERED if verify_directory(_existing(asked.directory)) else SOME_REFUSED


def _report(asked: argparse.Namespace) -> int:
    """The command report."""
    from tool.report import write_report
    write_summary(_existing(asked.directory))
    print(write_report(asked.directory))
    return ANSWERED


def _smooth(asked: argparse.Namespace) -> int:
    """The command smooth."""
    from tool.scan import smooth_file
    try:
        trufolmesca.smooth_to([], asked.window)  # the window comes first, also before a file that cannot be read
    except trufolmesca.Refused as refusal:
        raise Unanswered(f"--window {asked.window}: {refusal}") from None
    try:
        print(smooth_file(asked.file, asked.window, asked.column, asked.out))
    except Unanswered as why:
        print(f"trufolmesca: {printable(str(asked.file))}: {printable(str(why))}", file=sys.stderr)
        return SOME_REFUSED
    return ANSWERED


def _card(asked: argparse.Namespace) -> int:
    """The command card."""
    from tool.card import print_card
    try:
        print(print_card(asked.file, asked.newer, asked.older))
    except Unanswered as why:
        print(f"trufolmesca: {printable(str(asked.file))}: {printable(str(why))}", file=sys.stderr)
        return SOME_REFUSED
    return ANSWERED


def _existing(directory: Path) -> Path:
    """A directory, or a sentence where it is none."""
    if not directory.is_dir():
        raise Unanswered(f"{directory} is not a directory")
    return directory
