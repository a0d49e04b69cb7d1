"""Many photographs: their names, the work in parallel, what is said of each, and summary.csv."""
from __future__ import annotations

import csv
import fcntl
import glob
import io
import os
import signal
import sys
from collections import deque
from collections.abc import Iterator
from concurrent.futures import FIRST_COMPLETED, Future, ProcessPoolExecutor, wait
from concurrent.futures.process import BrokenProcessPool
from dataclasses import dataclass
from multiprocessing import get_context
from pathlib import Path

import cv2
from tqdm import tqdm

from tool import printable, reason
from tool.measure import Options, measure
from tool.photograph import sha256_of_file
from tool.pictures import overlay_of, png_of
from tool.published import Differs, read_fields
from tool.record import PICTURES, Record, json_bytes, write_whole

FORMULA_STARTS = "=+-@\t\r"
WORKER_BYTES = 3 << 29      # what the largest common photographs take, decoded twice in colour
SUMMARY = ("name", "photo", "text", "number", "word", "x0", "y0", "x1", "y1", "x2", "y2", "x3", "y3", "refined",
           "spread_px", "repeatable", "module_px", "px_per_mm_top", "px_per_mm_right", "px_per_mm_bottom",
           "px_per_mm_left", "smoothed_px", "read", "warnings")


@dataclass(frozen=True)
class Outcome:
    """What became of one photograph: a line for each label, and whether all were answered."""

    lines: list[str]
    answered: bool


@dataclass(frozen=True)
class Task:
    """One photograph to be measured, and the name that its outputs begin with."""

    photo: Path
    name: str
    taken: frozenset[str]
    directory: Path
    options: Options


def names_for(photos: list[Path], directory: Path) -> list[str]:
    """A name for each photograph's outputs: its stem, with a number behind it where that is another photograph's."""
    names: list[str] = []
    stems = {printable(photo.stem) for photo in photos}
    for photo in photos:
        stem = printable(photo.stem)
        name, count = stem, 1
        while name in names or (count > 1 and name in stems) or _is_anothers(directory, name, photo):
            count += 1
            name = f"{stem}_{count}"
        names.append(name)
    return names


def _is_anothers(directory: Path, name: str, photo: Path) -> bool:
    """Whether the directory has, under this name, the record of a file with other contents, which must not be lost."""
    published = _published_sha256(directory / f"{name}.json")
    if published is None:
        return False
    try:
        return published != sha256_of_file(photo)
    except OSError:
        return True


def _published_sha256(path: Path) -> str | None:
    """The hash of the photograph that a record is of; None where there is no such record."""
    try:
        return read_fields(path)["photo_sha256"]
    except (Differs, KeyError):
        return None


def default_jobs(photos: int) -> int:
    """As many workers as there are processors, photographs and memory for."""
    try:
        processors = len(os.sched_getaffinity(0))
    except AttributeError:
        processors = os.cpu_count() or 1
    return max(1, min(processors, photos, _memory_available() // WORKER_BYTES))


def _memory_available() -> int:
    """The memory that new programs can take, in bytes, as Linux tells it."""
    for line in Path("/proc/meminfo").read_text().splitlines():
        if line.startswith("MemAvailable:"):
            return int(line.split()[1]) * 1024
    return WORKER_BYTES


def measure_many(photos: list[Path], directory: Path, options: Options, jobs: int | None) -> bool:
    """Measures photographs, writes their outputs and summary.csv, and says whether all were answered."""
    names = names_for(photos, directory)
    taken = frozenset(names)
    tasks = [Task(photo, name, taken, directory, options) for photo, name in zip(photos, names)]
    answered = True
    with _Progress(len(tasks)) as progress:
        try:
            for outcome in _outcomes(tasks, jobs or default_jobs(len(tasks))):
                progress.say(outcome)
                answered = answered and outcome.answered
        finally:
            write_summary(directory)
    return answered


class _Progress:
    """Says each photograph's line, below a progress bar where a person watches many."""

    def __init__(self, count: int):
        self.count, self.done = count, 0
        self.bar = tqdm(total=count, unit="photo", disable=not (count > 1 and sys.stderr.isatty()))

    def __enter__(self) -> "_Progress":
        return self

    def __exit__(self, *_: object) -> None:
        self.bar.close()

    def say(self, outcome: Outcome) -> None:
        """Prints what became of one photograph: with a bar only what is wrong, otherwise all."""
        self.done += 1
        self.bar.update()
        for line in outcome.lines:
            if self.bar.disable or not outcome.answered or "WARNING" in line:
                tqdm.write(f"[{self.done}/{self.count}] {line}", file=sys.stdout)
        sys.stdout.flush()


def _outcomes(tasks: list[Task], jobs: int) -> Iterator[Outcome]:
    """What becomes of each task, in the order in which they end."""
    if jobs == 1 or len(tasks) == 1:
        yield from map(measured_and_written, tasks)
        return
    waiting = deque(tasks)
    while waiting:
        suspects: list[Task] = []
        yield from _in_pool(waiting, jobs, suspects)
        for task in suspects:
            yield from _alone(task)


def _in_pool(waiting: deque[Task], jobs: int, suspects: list[Task]) -> Iterator[Outcome]:
    """Runs tasks in worker processes, with one more at hand for each, until none is left or a worker dies.

    A dead worker takes all tasks at hand along, and one of them is why: these are the suspects.
    """
    running: dict[Future, Task] = {}
    with _pool(jobs) as pool:
        try:
            while waiting or running:
                while waiting and len(running) < 2 * jobs:
                    # In two steps: a pool that has just broken refuses the task, which has to wait on.
                    future = pool.submit(measured_and_written, waiting[0])
                    running[future] = waiting.popleft()
                done, _ = wait(running, return_when=FIRST_COMPLETED)
                for future in done:
                    outcome = future.result()
                    del running[future]
                    yield outcome
        except BrokenProcessPool:
            suspects += running.values() or [waiting.popleft()]
        except (KeyboardInterrupt, GeneratorExit):
            pool.shutdown(cancel_futures=True)
            raise


def _alone(task: Task) -> Iterator[Outcome]:
    """Runs one task in a worker of its own, and says so where that dies."""
    with _pool(1) as pool:
        try:
            yield pool.submit(measured_and_written, task).result()
        except BrokenProcessPool:
            yield _given_up(task, "the work was ended from outside, most likely since the memory did not suffice")


def _pool(jobs: int) -> ProcessPoolExecutor:
    """Worker processes that start fresh and know nothing of each other."""
    return ProcessPoolExecutor(jobs, mp_context=get_context("forkserver"), initializer=_start_worker)


def _start_worker() -> None:
    """Leaves Ctrl-C to the parent, which lets a worker finish its photograph, and keeps OpenCV to one processor."""
    signal.signal(signal.SIGINT, signal.SIG_IGN)
    cv2.setNumThreads(1)


def measured_and_written(task: Task) -> Outcome:
    """Measures one photograph and writes what comes of it; whatever goes wrong is an outcome, not an end."""
    try:
        records = measure(task.photo, task.options)
        names = list(_label_names(task, len(records)))
        for name, record in zip(names, records):
            write_outputs(task.directory, name, record)
        _remove_earlier(task, names, records[0].photo_sha256)
    except MemoryError:
        return _given_up(task, "the memory does not suffice for this picture")
    except OSError as error:
        return Outcome([f"{printable(str(task.photo))}: the outputs cannot be written: {reason(error)}"], False)
    except Exception as error:  # one photograph must not end the work on the others
        return _given_up(task, f"a mistake in this tool ({type(error).__name__}: {error}); please report it")
    lines = [line_of(task.photo, record) for record in records]
    return Outcome(lines, all(record.number == 0 for record in records))


def _given_up(task: Task, why: str) -> Outcome:
    """The outcome of a photograph that could not be worked on, with its record."""
    record = Record(None, why, printable(task.photo.name))
    try:
        write_outputs(task.directory, task.name, record)
    except OSError:
        pass
    return Outcome([line_of(task.photo, record)], False)


def _label_names(task: Task, count: int) -> Iterator[str]:
    """NAME for the first label of a photograph, then NAME-2 and so on, passing over other photographs' names."""
    yield task.name
    number, given = 2, 1
    while given < count:
        name = f"{task.name}-{number}"
        number += 1
        if name not in task.taken and not _is_anothers(task.directory, name, task.photo):
            given += 1
            yield name


def _remove_earlier(task: Task, names: list[str], sha256: str | None) -> None:
    """Removes what an earlier run over the same file wrote of labels that this run did not find."""
    for path in task.directory.glob(f"{glob.escape(task.name)}-*.json"):
        number = path.stem[len(task.name) + 1:]
        if number.isdigit() and path.stem not in names and sha256 is not None and _published_sha256(path) == sha256:
            for kind in PICTURES:
                (task.directory / f"{path.stem}.{kind}.png").unlink(missing_ok=True)
            path.unlink()


def write_outputs(directory: Path, name: str, record: Record) -> None:
    """Writes a label's pictures and then its JSON, which is thus never there without them."""
    pictures = {}
    if record.marks is not None:
        pictures = {"blanked": record.marks.copy, "sheet": record.marks.sheet * 255, "overlay": overlay_of(record)}
    for kind in PICTURES:
        path = directory / f"{name}.{kind}.png"
        if kind in pictures:
            write_whole(path, png_of(pictures[kind]))
        else:
            path.unlink(missing_ok=True)
    write_whole(directory / f"{name}.json", json_bytes(record.as_json(name)))


def line_of(photo: Path, record: Record) -> str:
    """One line for people: the corners and how well they repeat, or why there are none."""
    label = f" '{printable(record.text)}'" if record.text else ""
    shown = f"{printable(str(photo))}{label}"
    warnings = "".join(f" WARNING: {warning}" for warning in record.warnings)
    if record.corners is None:
        number = "" if record.number is None else f" by {record.number}"
        return f"{shown}: refused{number}: {record.word}.{warnings}"
    corners = " ".join(f"({x:.3f}, {y:.3f})" for x, y in record.corners)
    smoothed = record.prepare["sigma_px"]
    prepared = f", smoothed by {smoothed:g} px first" if smoothed else ""
    return f"{shown}: {corners}, repeats to {record.spread_px:.3f} px, {record.read} pixels read{prepared}.{warnings}"


def write_summary(directory: Path) -> None:
    """Writes summary.csv from every record of the directory; runs that share one wait for each other here."""
    lock = os.open(directory, os.O_RDONLY)
    try:
        fcntl.flock(lock, fcntl.LOCK_EX)
        write_whole(directory / "summary.csv", _summary(directory).encode())
    finally:
        os.close(lock)


def _summary(directory: Path) -> str:
    """The text of summary.csv."""
    text = io.StringIO()
    table = csv.writer(text, lineterminator="\n")
    table.writerow(SUMMARY)
    for path in sorted(directory.glob("*.json")):
        try:
            table.writerow(_row(path.stem, read_fields(path)))
        except (Differs, KeyError, TypeError, ValueError):
            table.writerow([_text(path.stem), "", "", "", "this file is damaged, or not a record of this tool"])
    return text.getvalue()


def _text(value: str | None) -> str | None:
    """A text that no spreadsheet takes for a formula: a label can say anything."""
    return "'" + value if value and value[0] in FORMULA_STARTS else value


def _row(name: str, record: dict) -> list:
    """A record as a row of summary.csv."""
    corners = [f"{value:.4f}" for corner in record["corners"] or [[None] * 2] * 4 for value in corner if value is not None]
    scales = [f"{value:.4f}" for value in record["px_per_mm"] or []]
    spread, module = record["spread_px"], record["module_px"]
    return [_text(name), _text(record["photo"]), _text(record["text"]), record["number"], record["word"], *(corners or [""] * 8),
            "" if record["refined"] is None else sum(record["refined"]),
            "" if spread is None else f"{spread:.4f}",
            {True: "yes", False: "NOT REPEATABLE", None: ""}[record["repeatable"]],
            "" if module is None else f"{module:.3f}", *(scales or [""] * 4),
            "" if record["prepare"] is None else record["prepare"]["sigma_px"], record["read"],
            " ".join(record["warnings"])]
