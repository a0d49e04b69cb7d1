"""What the tests of the bindings share: where the repository, the archive and the shared object are."""
from __future__ import annotations

import os
import subprocess
import sys
from collections.abc import Callable
from pathlib import Path

import pytest

ROOT = Path(__file__).resolve().parents[2]
sys.path.insert(0, str(ROOT / "bindings" / "python"))


@pytest.fixture(scope="session")
def root() -> Path:
    """The top of the repository."""
    return ROOT


@pytest.fixture(scope="session")
def version() -> str:
    """The library's version, as the file VERSION has it."""
    return (ROOT / "VERSION").read_text().strip()


@pytest.fixture(scope="session")
def archive() -> Path:
    """The static library that was proved."""
    path = ROOT / "crates" / "export" / "out" / "libexport.a"
    assert path.is_file(), f"{path} is not there: run tools/setup"
    return path


@pytest.fixture(scope="session")
def library(version) -> Path:
    """The shared object with its version in its name: $TRUFOLMESCA_LIBRARY, or the one that tools/setup makes."""
    path = Path(os.environ.get("TRUFOLMESCA_LIBRARY") or ROOT / "target" / "lib" / f"libtrufolmesca.so.{version}").resolve()
    assert path.is_file(), f"{path} is not there: run tools/setup"
    return path


@pytest.fixture
def compiled(tmp_path: Path, archive: Path) -> Callable[..., Path]:
    """Compiles a C source over the header and the archive, every warning an error, and gives the program."""
    def compile_(source: Path, *options: str) -> Path:
        program = tmp_path / source.stem
        words = ["cc", "-std=c11", "-O1", "-Wall", "-Wextra", "-Werror", f"-I{ROOT / 'bindings'}", *options]
        done = subprocess.run([*words, "-o", program, source, archive], capture_output=True, text=True)
        assert done.returncode == 0, done.stderr
        return program
    return compile_
