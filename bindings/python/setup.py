"""Packs what pyproject.toml says, with the shared object and its archive's hash: in a repository those that it has built, and in a source
archive those that it carries. A link to them would do, but `rt ci` refuses a repository with a link in it."""
import shutil
from pathlib import Path

from setuptools import setup
from setuptools.command.build_py import build_py
from setuptools.command.sdist import sdist

HERE = Path(__file__).resolve().parent
CARRIED = ("libtrufolmesca.so.0", "libtrufolmesca.archive-sha256")


def found(name: str) -> Path:
    """Where a file of the library is: in the package, else where the repository has built it."""
    for folder in (HERE / "trufolmesca", HERE.parents[1] / "target" / "lib"):
        if (folder / name).is_file():
            return folder / name
    raise SystemExit(f"trufolmesca/{name} is not there: run tools/setup in the repository first")


def put(top: str) -> None:
    """Puts the library beside the package's Python under this folder."""
    for name in CARRIED:
        to = Path(top) / "trufolmesca" / name
        to.parent.mkdir(parents=True, exist_ok=True)
        if not (to.exists() and to.samefile(found(name))):
            shutil.copyfile(found(name), to)


class WithLibrary(build_py):
    """Builds the package with the library in it."""

    def run(self) -> None:
        super().run()
        if not self.editable_mode:
            put(self.build_lib)


class Archive(sdist):
    """Makes a source archive with the library in it."""

    def make_release_tree(self, base_dir: str, files: list[str]) -> None:
        super().make_release_tree(base_dir, files)
        put(base_dir)


for name in CARRIED:
    found(name)
setup(cmdclass={"build_py": WithLibrary, "sdist": Archive})
