"""The command line: what it takes, what it refuses, and its exit status; and tools/card's."""
from __future__ import annotations

import os
import pty
import subprocess
from pathlib import Path

import pytest
import trufolmesca
from rendered import a_photograph, encoded

ROOT = Path(__file__).resolve().parents[2]
ROUGH = (ROOT / "examples/label.rough").read_text().split()


def run_alone(*words: object, **how) -> subprocess.CompletedProcess:
    """The command in a process of its own."""
    return subprocess.run([ROOT / "trufolmesca", *words], stdout=subprocess.PIPE, text=True, **how)


@pytest.mark.parametrize("words", [("--help",), ("measure", "--help"), ("verify", "--help"), ("report", "--help"),
                                   ("smooth", "--help"), ("card", "--help")])
def test_help_fits_a_terminal(archive, words, monkeypatch):
    monkeypatch.setenv("COLUMNS", "100")
    assert archive.run(*words) == 0
    assert archive.said.startswith("usage: trufolmesca") and max(map(len, archive.said.splitlines())) <= 100


def test_the_version_is_the_bindings(archive):
    assert archive.run("--version") == 0 and archive.said == f"trufolmesca {trufolmesca.__version__}\n"


@pytest.mark.parametrize("words, said", [
    ((), "required"), (("publish",), "invalid choice"), (("measure",), "required"), (("measure", "a.png"), "--out"),
    (("measure", "a.png", "--out", "o", "--corners", "1", "2"), "expected 8 arguments"),
    (("measure", "a.png", "--out", "o", "--corners", *"1234567", "nan"), "not a finite number"),
    (("measure", "a.png", "--out", "o", "--corners", *"1234567", "x"), "invalid number"),
    (("measure", "a.png", "--out", "o", "--side-mm", "-2e-1"), "is not above 0"),
    (("measure", "a.png", "--out", "o", "--prepare", "much"), "is not auto, off"),
    (("measure", "a.png", "--out", "o", "--prepare", "-1"), "above 0 and up to 50"),
    (("measure", "a.png", "--out", "o", "--jobs", "0"), "not a number of workers"),
    (("measure", "a.png", "--out", "o", "--grid", "none.grid"), "cannot be read as a text file"),
    (("measure", "a.png", "--out", "/dev/null/o"), "cannot be made"),
    (("smooth", "a.csv"), "--window"), (("smooth", "a.csv", "--window", "3.0"), "invalid int value"),
    (("smooth", "--window", "3"), "FILE.csv")])
def test_bad_usage_is_status_2_in_words(archive, words, said):
    assert archive.run(*words) == 2
    assert said in archive.complained and "Traceback" not in archive.complained


@pytest.mark.parametrize("rows", [["01", "0"], ["0"], ["02", "00"], ["0" * 178] * 178])
def test_a_grid_that_is_no_square_is_said(archive, rows):
    path = archive.add("label.grid", "\n".join(rows).encode())
    assert archive.measure("a.png", "--grid", path) == 2 and "not a square of 2 to 177 rows" in archive.complained


def test_corners_below_zero_with_an_exponent_are_numbers(archive):
    path = archive.add("find.png", a_photograph().picture)
    corners = ["-1e-3", "-2.5E+0", "9", "0", "9", "9", "-0.5", "9"]
    assert archive.measure(path, "--corners", *corners) == 1
    assert "no label is to be read" in archive.said


def test_the_command_itself(tmp_path):
    path = tmp_path / "find.png"
    path.write_bytes(encoded(a_photograph().picture, ".png"))
    done = run_alone("measure", path, "--out", tmp_path / "out", stderr=subprocess.PIPE, cwd=tmp_path)
    assert done.returncode == 0 and "FIND 1234" in done.stdout and done.stderr == ""
    assert run_alone("verify", tmp_path / "out").returncode == 0


def test_a_missing_library_is_said_once(measured):
    elsewhere = {**os.environ, "TRUFOLMESCA_LIBRARY": "/none/libtrufolmesca.so"}
    for words in (("measure", measured.home / "find.png", "--out", measured.out), ("verify", measured.out)):
        done = run_alone(*words, env=elsewhere, stderr=subprocess.PIPE)
        assert done.returncode == 2 and done.stdout == ""
        assert done.stderr == "trufolmesca: the library /none/libtrufolmesca.so cannot be used (it is not there): TRUFOLMESCA_LIBRARY names it\n"


def test_a_bar_where_a_person_watches_many(measured):
    screen, terminal = pty.openpty()
    done = run_alone("measure", measured.home / "find.png", measured.home / "none.png", "--out", measured.out, "--jobs", "1", stderr=terminal)
    os.close(terminal)
    shown = os.read(screen, 1 << 16).decode()
    os.close(screen)
    assert done.returncode == 1 and "100%" in shown and "2/2" in shown
    assert done.stdout.count("\n") == 1 and "none.png: refused" in done.stdout


def test_names_of_any_bytes_and_texts_with_escapes(archive):
    photo = archive.home / b"\xff\n-find.png".decode("utf-8", "surrogateescape")
    photo.write_bytes(encoded(a_photograph("A\x1b[31m\nB").picture, ".png"))
    assert archive.measure(photo, archive.home / "no\udcffne.png") == 1
    assert archive.said.count("\n") == 2 and "\x1b" not in archive.said and "??-find.png 'A?[31m?B': (" in archive.said
    assert archive.record("??-find")["photo"] == "??-find.png" and archive.record("??-find")["text"] == "A\x1b[31m\nB"
    assert archive.verify() == 0


def test_nobody_reads_on(measured):
    for index in range(2000):
        (measured.out / f"{index}.json").write_text("{}")
    done = subprocess.run(f"{ROOT}/trufolmesca verify {measured.out} | head -1", shell=True, capture_output=True, text=True)
    assert done.stderr == "" and done.stdout.count("\n") == 1


def test_setup_knows_its_words():
    done = subprocess.run([ROOT / "tools/setup", "--everything"], capture_output=True, text=True)
    assert done.returncode == 2 and done.stderr == "usage: tools/setup [--tests]\n"


def card(*words: str) -> subprocess.CompletedProcess:
    """tools/card with these words."""
    return subprocess.run([ROOT / "tools/card", *words], capture_output=True, cwd=ROOT)


def test_card_writes_the_example():
    done = card("examples/label.pgm", "examples/label.grid", *ROUGH)
    assert done.returncode == 0 and done.stdout == (ROOT / "examples/label.card").read_bytes()


def test_card_takes_negative_numbers_with_an_exponent():
    done = card("examples/label.pgm", "examples/label.grid", "-1e-3", *ROUGH[1:], "--source", "300", "300", "-1.5E+2", "-1e2",
                "--rectified", "300", "300", "120", "120", "--lens", "-1e-1", "2e-2", "-3e-4", "0", "0")
    assert done.returncode == 0 and done.stderr == b""


@pytest.mark.parametrize("picture, grid, said", [
    ("none.pgm", "examples/label.grid", "none.pgm: cannot be read: no such file or directory"),
    ("examples/label.pgm", "none.grid", "none.grid: cannot be read: no such file or directory"),
    ("examples", "examples/label.grid", "examples: cannot be read: is a directory"),
    ("examples/label.grid", "examples/label.grid", "not a grey PGM"),
    ("examples/label.pgm", "examples/label.pgm", "not a square of 0 and 1")])
def test_card_says_what_is_wrong_with_a_file(picture, grid, said):
    done = card(picture, grid, *ROUGH)
    assert done.returncode == 1 and said in done.stderr.decode() and done.stdout == b"" and b"Traceback" not in done.stderr


@pytest.mark.parametrize("rows", [178, 300])
def test_card_refuses_a_grid_of_too_many_rows(tmp_path, rows):
    path = tmp_path / "large.grid"
    path.write_text(("0" * rows + "\n") * rows)
    done = card("examples/label.pgm", str(path), *ROUGH)
    assert done.returncode == 1 and f"{rows} rows; a label has at most 177" in done.stderr.decode()
