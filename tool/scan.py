"""A scan of a rim profile: read from a CSV file, smoothed, written with a column more, plotted."""
from __future__ import annotations

import csv
import math
import re
from dataclasses import dataclass
from pathlib import Path

import numpy as np
from trufolmesca import smooth_to

from tool import Unanswered, printable
from tool.pictures import png_of
from tool.plot import plot_of
from tool.record import write_whole

LARGEST_HEIGHT = 65535
HEIGHT = "height"        # the heading by which the heights are found, whatever its case
MOST_SAID = 5            # bad lines that are said one by one
MARK = "\ufeff"          # spreadsheets write it at a file's start


@dataclass(frozen=True)
class Row:
    """A line of the file, or several where a cell goes over lines, as it is written; its cells."""

    line: int
    text: str
    cells: list[str]

    @property
    def is_record(self) -> bool:
        """Whether it is a record or a heading, and no remark and no empty line."""
        return bool(self.text.strip()) and not self.text.startswith("#")


@dataclass(frozen=True)
class Scan:
    """A file's rows, what parts their cells, heading and records, and the heights' column."""

    rows: list[Row]
    separator: str
    heading: Row | None
    records: list[Row]
    column: int

    def heights(self) -> list[int]:
        """The height of each record."""
        wrong = [(row, why) for row in self.records if (why := self._fault(row))]
        if wrong:
            said = "; ".join(f"line {row.line}: {why}" for row, why in wrong[:MOST_SAID])
            raise Unanswered(said + (f"; and {len(wrong) - MOST_SAID} lines more" if len(wrong) > MOST_SAID else ""))
        return [int(row.cells[self.column]) for row in self.records]

    def _fault(self, row: Row) -> str | None:
        """What is wrong with a record."""
        columns = len((self.heading or self.records[0]).cells)
        if len(row.cells) != columns:
            return f"it has {len(row.cells)} columns, where the first has {columns}"
        word = row.cells[self.column].strip()
        if not re.fullmatch("[0-9]+", word) or len(word) > 20 or int(word) > LARGEST_HEIGHT:
            return f"the height {word!r} is not a whole number from 0 to {LARGEST_HEIGHT}"
        return None

    def places(self) -> list[float]:
        """Where each record lies: by its first cell where all are numbers, else by its index."""
        places = [_number(row.cells[0]) for row in self.records] if self.column else [None]
        return [*range(len(self.records))] if None in places else places

    def with_column(self, heading: str, values: list[int]) -> str:
        """The file's text with a column more behind all others, and every byte else as it was."""
        added = {row.line: str(value) for row, value in zip(self.records, values)}
        if self.heading is not None:
            added[self.heading.line] = heading
        return "".join(_extended(row.text, self.separator, added.get(row.line)) for row in self.rows)


def _extended(text: str, separator: str, cell: str | None) -> str:
    """A row with a cell more, before its line's end."""
    if cell is None:
        return text
    bare = text.rstrip("\r\n")
    return f"{bare}{separator}{cell}{text[len(bare):]}"


def _number(cell: str) -> float | None:
    """A cell as a finite number, with a point or a comma; none where it is another thing."""
    try:
        number = float(cell.strip().replace(",", "."))
    except ValueError:
        return None
    return number if math.isfinite(number) else None


# ---- reading


def read_scan(text: str, column: str | None) -> Scan:
    """The scan in a text; `column` names or counts the heights' column, if it is given."""
    lines = re.findall(r"[^\n]*\n|[^\n]+", text)
    separator = _separator(lines)
    rows = _rows(lines, separator)
    filled = [row for row in rows if row.is_record]
    heading = filled[0] if filled and not any(_number(cell) is not None for cell in filled[0].cells) else None
    records = filled[1:] if heading else filled
    gap = next((row for row in rows if filled and not row.text.strip() and filled[0].line < row.line < filled[-1].line), None)
    if gap:
        raise Unanswered(f"line {gap.line} is empty, and a scan has no gap")
    return Scan(rows, separator, heading, records, _column(heading, filled, column))


def _separator(lines: list[str]) -> str:
    """What parts the cells: tab, semicolon or comma, the first of these that the first row has."""
    first = next((line for line in lines if line.strip() and not line.startswith("#")), "")
    return next((separator for separator in "\t;," if separator in first), ",")


def _rows(lines: list[str], separator: str) -> list[Row]:
    """Lines as rows, each with its text as it is written."""
    rows: list[Row] = []
    reader = csv.reader(lines, delimiter=separator, strict=True)
    before = 0
    try:
        for cells in reader:
            rows.append(Row(before + 1, "".join(lines[before:reader.line_num]), cells))
            before = reader.line_num
    except csv.Error as error:
        raise Unanswered(f"line {before + 1} cannot be read: {error}") from None
    return rows


def _column(heading: Row | None, filled: list[Row], asked: str | None) -> int:
    """The heights' column: the one asked for, headed so, the only one, or the second of two."""
    columns = len(filled[0].cells) if filled else 1
    names = [cell.strip().lower() for cell in heading.cells] if heading else []
    if asked is not None:
        if asked.strip().lower() in names:
            return names.index(asked.strip().lower())
        if asked.isdecimal() and 1 <= int(asked) <= columns:
            return int(asked) - 1
        raise Unanswered(f"there is no column {asked}: the first line has {columns}" + (f", {', '.join(heading.cells)}" if heading else ""))
    if names.count(HEIGHT) == 1:
        return names.index(HEIGHT)
    if columns > 2:
        raise Unanswered(f"there are {columns} columns, and no single one is headed {HEIGHT!r}: say which has the heights by --column")
    return columns - 1


# ---- the command


def smooth_file(path: Path, window: int, column: str | None, out: Path | None) -> str:
    """Smooths the scan of a file, writes table and plot, and gives a sentence on what was done."""
    table = out or path.with_name(f"{path.stem}-smoothed.csv")
    picture = table.with_suffix(".png")
    if table.suffix.lower() == ".png":
        raise Unanswered(f"{table} would be table and plot in one: --out names the table, and the plot has .png for its ending")
    if path.resolve() in (table.resolve(), picture.resolve()):
        raise Unanswered(f"{path} is what would be written over: name another file by --out")
    contents = path.read_bytes()
    if b"\0" in contents:
        raise Unanswered("it is no text in UTF-8: save it as CSV")
    # Letters of another encoding go through unchanged: only digits and separators are looked at.
    text = contents.decode("utf-8", "surrogateescape")
    mark = MARK if text.startswith(MARK) else ""
    scan = read_scan(text[len(mark):], column)
    before = scan.heights()
    after = smooth_to(np.array(before, np.uint16), window).tolist()
    write_whole(table, (mark + scan.with_column(f"smoothed_{window}", after)).encode("utf-8", "surrogateescape"))
    write_whole(picture, png_of(plot_of(scan.places(), before, after, window)))
    return printable(f"{path}: {len(before)} heights smoothed over {window}: {table}, {picture}")
