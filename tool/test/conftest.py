"""What the tests share: an archive on which the command is run in process. rendered.py has the photographs."""
from __future__ import annotations

import json
import shutil
import sys
from pathlib import Path

sys.path.insert(0, str(Path(__file__).resolve().parents[2]))

import tool  # noqa: E402,F401  (sets OpenCV's limits before it is loaded)

import cv2  # noqa: E402
import numpy as np  # noqa: E402
import pytest  # noqa: E402
from rendered import a_photograph, encoded  # noqa: E402

from tool.cli import main  # noqa: E402


class Archive:
    """A directory of photographs and one of results, with the commands run on them."""

    def __init__(self, home: Path, capsys):
        self.home, self.out, self.capsys = home, home / "out", capsys
        self.said = self.complained = ""

    def add(self, name: str, contents: np.ndarray | bytes) -> Path:
        """Puts a photograph, or any bytes, into the directory."""
        path = self.home / name
        path.parent.mkdir(parents=True, exist_ok=True)
        path.write_bytes(contents if isinstance(contents, bytes) else encoded(contents, path.suffix))
        return path

    def run(self, *words: object) -> int:
        """Runs a command and keeps what it said."""
        self.capsys.readouterr()
        status = main([str(word) for word in words])
        self.said, self.complained = self.capsys.readouterr()
        return status

    def measure(self, *words: object) -> int:
        """Runs measure into the directory of results."""
        return self.run("measure", *words, "--out", self.out)

    def verify(self) -> int:
        """Runs verify over the directory of results."""
        return self.run("verify", self.out)

    def record(self, name: str) -> dict:
        """The record of this name."""
        return json.loads((self.out / f"{name}.json").read_text())

    def picture(self, name: str) -> np.ndarray:
        """A picture of the results, as it is stored."""
        return cv2.imread(str(self.out / name), cv2.IMREAD_UNCHANGED)


@pytest.fixture
def archive(tmp_path: Path, capsys) -> Archive:
    """An empty archive."""
    return Archive(tmp_path, capsys)


@pytest.fixture(scope="session")
def measured_once(tmp_path_factory) -> Path:
    """A directory with one photograph, measured; nobody changes it."""
    home = tmp_path_factory.mktemp("measured")
    (home / "find.png").write_bytes(encoded(a_photograph().picture, ".png"))
    assert main(["measure", str(home / "find.png"), "--side-mm", "20", "--out", str(home / "out")]) == 0
    return home


@pytest.fixture
def measured(archive: Archive, measured_once: Path) -> Archive:
    """An archive with one photograph, measured."""
    shutil.copytree(measured_once, archive.home, dirs_exist_ok=True)
    return archive
