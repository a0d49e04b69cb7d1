"""What the tests of the packages share: make, the manual's example, and an environment in which nothing names the library."""
from __future__ import annotations

import os
import re
import subprocess
from pathlib import Path

ROOT = Path(__file__).resolve().parents[2]
MANUAL = ROOT / "packaging" / "man" / "trufolmesca.3"
EXAMPLE_PRINTS = "17.500 17.500\n80.500 17.500\n80.500 80.500\n17.500 80.500\n"


def run(*words: object, **how) -> subprocess.CompletedProcess:
    """Runs a command, and keeps what it says and complains of."""
    return subprocess.run([str(word) for word in words], capture_output=True, text=True, **how)


def said(*words: object, **how) -> str:
    """What a command says that must succeed."""
    done = run(*words, **how)
    assert done.returncode == 0, done.stdout + done.stderr
    return done.stdout


def make(*words: object) -> subprocess.CompletedProcess:
    """Runs make over the library as it is built: a test never starts the prover."""
    return run("make", "-C", ROOT, "--no-print-directory", "--old-file=crates/export/out/libexport.a", *words, env=plain())


def plain(**more: object) -> dict[str, str]:
    """The environment without what would lead a program to the library, or a make to the options of another."""
    dropped = {"TRUFOLMESCA_LIBRARY", "LD_LIBRARY_PATH", "PYTHONPATH", "PYTHONDONTWRITEBYTECODE", "PKG_CONFIG_PATH",
               "MAKEFLAGS", "MAKELEVEL", "SOURCE_DATE_EPOCH"}
    kept = {name: value for name, value in os.environ.items() if name not in dropped}
    return {**kept, **{name: str(value) for name, value in more.items()}}


def example(folder: Path) -> Path:
    """The manual's example, written into a folder."""
    text = MANUAL.read_text()
    shown = re.search(r"^\.Sh EXAMPLES\n.*?^\.Bd -literal -offset indent\n(.*?)^\.Ed$", text, re.S | re.M)
    source = folder / "square.c"
    source.write_text(shown[1].replace("\\e", "\\"))
    return source


def entries(folder: Path) -> set[str]:
    """All that stands under a folder."""
    return {str(path.relative_to(folder)) for path in folder.rglob("*")}
