"""The command smooth: the columns it finds, what it keeps, what it refuses by line, the plot."""
from __future__ import annotations

from pathlib import Path

import cv2
import pytest

from tool.plot import HEIGHT, WIDTH


def smoothed(archive, contents: str | bytes, *words: object, name: str = "rim.csv") -> bytes:
    """The table that smooth makes of a file, by a window of 3 unless told otherwise."""
    path = archive.add(name, contents if isinstance(contents, bytes) else contents.encode())
    assert archive.run("smooth", path, *(words or ("--window", 3))) == 0, archive.complained
    return path.with_name(f"{path.stem}-smoothed.csv").read_bytes()


def refused(archive, contents: str, *words: object) -> str:
    """What smooth says of a file that it refuses, of which it writes nothing."""
    path = archive.add("rim.csv", contents.encode())
    assert archive.run("smooth", path, "--window", 3, *words) == 1
    assert [found.name for found in archive.home.iterdir()] == ["rim.csv"]
    return archive.complained.removeprefix(f"trufolmesca: {path}: ").removesuffix("\n")


# ---- what is written


@pytest.mark.parametrize("before, after", [
    ("10\n10\n40\n10\n11\n", "10,10\n10,20\n40,20\n10,20\n11,10\n"),
    ("0,10\n1,10\n2,40", "0,10,10\n1,10,20\n2,40,25"),
    ("height\n1\n2\n", "height,smoothed_3\n1,1\n2,1\n"),
    ("x,Height,note\n0.5,7,\"a, b\"\n1.0,8,\n", "x,Height,note,smoothed_3\n0.5,7,\"a, b\",7\n1.0,8,,7\n"),
    ("x;height\r\n0,5;7\r\n1,0;9\r\n", "x;height;smoothed_3\r\n0,5;7;8\r\n1,0;9;8\r\n"),
    ("0\t7\n1\t9\n\n", "0\t7\t8\n1\t9\t8\n\n"),
    ("# scanner 2\n\nplace,height\n0,7\n# halt\n1,9\n", "# scanner 2\n\nplace,height,smoothed_3\n0,7,8\n# halt\n1,9,8\n"),
    ("height,note\n5,\"two\nlines\"\n6, \"\n", "height,note,smoothed_3\n5,\"two\nlines\",5\n6, \",5\n"),
    ("\ufeffheight\n 65535 \n65535\n", "\ufeffheight,smoothed_3\n 65535 ,65535\n65535,65535\n"),
    ("", ""), ("height\n", "height,smoothed_3\n")])
def test_a_column_is_added_and_all_else_kept(archive, before, after):
    assert smoothed(archive, before).decode() == after


def test_letters_of_another_encoding_go_through(archive):
    assert smoothed(archive, b"H\xf6he,height\n\xe4,4\n\xfc,6\n") == b"H\xf6he,height,smoothed_3\n\xe4,4,5\n\xfc,6,5\n"


def test_a_column_can_be_named_or_counted(archive):
    table = "a,b,c\n1,2,30\n4,5,60\n"
    expected = b"a,b,c,smoothed_5\n1,2,30,45\n4,5,60,45\n"
    assert smoothed(archive, table, "--window", 5, "--column", "C") == expected
    assert smoothed(archive, table, "--window", 5, "--column", 3) == expected


def test_the_file_itself_stays_and_out_names_table_and_plot(archive):
    path = archive.add("rim.csv", b"1\n2\n3\n")
    assert archive.run("smooth", path, "--window", 31, "--out", archive.home / "other.txt") == 0
    assert archive.said == f"{path}: 3 heights smoothed over 31: {archive.home}/other.txt, {archive.home}/other.png\n"
    assert path.read_bytes() == b"1\n2\n3\n" and (archive.home / "other.txt").read_bytes() == b"1,2\n2,2\n3,2\n"


def test_the_plot_shows_both(archive):
    smoothed(archive, "".join(f"{i / 4},{1000 + 40 * (i % 7) + i}\n" for i in range(400)), "--window", 15)
    plot = cv2.imread(str(archive.home / "rim-smoothed.png"))
    assert plot.shape == (HEIGHT, WIDTH, 3)
    blue, red = plot[..., 0].astype(int), plot[..., 2].astype(int)
    assert (blue - red > 30).sum() > 400 and (red - blue > 60).sum() > 400


@pytest.mark.parametrize("contents", ["", "7\n", "7\n7\n7\n", "height\n"])
def test_a_scan_with_nothing_to_draw_has_a_plot(archive, contents):
    smoothed(archive, contents)
    assert cv2.imread(str(archive.home / "rim-smoothed.png")).shape == (HEIGHT, WIDTH, 3)


# ---- what is refused


@pytest.mark.parametrize("contents, said", [
    ("x,height\n0,5\n1,5.5\n", "line 3: the height '5.5' is not a whole number from 0 to 65535"),
    ("0,5\n1,-1\n", "line 2: the height '-1' is not a whole number from 0 to 65535"),
    ("5\n65536\n", "line 2: the height '65536' is not a whole number from 0 to 65535"),
    ("0,5\n1,\n2,6\n", "line 2: the height '' is not a whole number from 0 to 65535"),
    ("0,5\n1\n2,6,7\n", "line 2: it has 1 columns, where the first has 2; line 3: it has 3 columns, where the first has 2"),
    ("5\nx\n" + "y\n" * 7, "; ".join(f"line {i}: the height '{'x' if i == 2 else 'y'}' is not a whole number from 0 to 65535"
                                    for i in range(2, 7)) + "; and 3 lines more"),
    ("0,5\n\n1,6\n", "line 2 is empty, and a scan has no gap"),
    ("a,b,c\n1,2,3\n", "there are 3 columns, and no single one is headed 'height': say which has the heights by --column"),
    ("height\n\"5\n6\n", "line 2 cannot be read: unexpected end of data"),
    ("5\0\n", "it is no text in UTF-8: save it as CSV")])
def test_a_bad_row_is_said_with_its_line(archive, contents, said):
    assert refused(archive, contents) == said


def test_a_column_that_is_not_there_is_said(archive):
    assert refused(archive, "a,b\n1,2\n", "--column", "height") == "there is no column height: the first line has 2, a, b"
    assert refused(archive, "1,2\n", "--column", "3") == "there is no column 3: the first line has 2"


@pytest.mark.parametrize("window", [0, 1, 2, 4, 30, 32, 33, -3, 2 ** 32 + 3])
def test_a_wrong_window_is_21_also_before_a_file_that_is_not_there(archive, window):
    assert archive.run("smooth", archive.home / "none.csv", "--window", window) == 2
    assert archive.complained == f"trufolmesca: --window {window}: refused by 21: the window is not an odd number from 3 to 31\n"


def test_no_file_is_written_over_what_is_read(archive):
    path = archive.add("rim.csv", b"1\n")
    for out in (path, Path(f"{archive.home}/../{archive.home.name}/rim.csv")):
        assert archive.run("smooth", path, "--window", 3, "--out", out) == 1 and "would be written over" in archive.complained
    assert archive.run("smooth", path, "--window", 3, "--out", archive.home / "plot.png") == 1
    assert "would be table and plot in one" in archive.complained and path.read_bytes() == b"1\n"


def test_a_file_that_is_not_there_is_said(archive):
    assert archive.run("smooth", archive.home / "none.csv", "--window", 3) == 1
    assert archive.complained == f"trufolmesca: {archive.home}/none.csv: no such file or directory\n"
