"""The Python package: its metadata, source archive and wheel, its use without the repository, and its type hints."""
from __future__ import annotations

import os
import re
import shutil
import subprocess
import sys
import tarfile
import zipfile
from email import message_from_bytes
from hashlib import sha256
from pathlib import Path

import pytest
import trufolmesca

CARRIED = {f"trufolmesca/{name}" for name in ("__init__.py", "py.typed", "libtrufolmesca.so.0", "libtrufolmesca.archive-sha256")}
WITHOUT_LIBRARY = {key: value for key, value in os.environ.items() if key != "TRUFOLMESCA_LIBRARY"}


def run(*words: object, **how) -> subprocess.CompletedProcess:
    """A command, without $TRUFOLMESCA_LIBRARY, and what it printed."""
    return subprocess.run([*map(str, words)], env=WITHOUT_LIBRARY, capture_output=True, text=True, **how)


def build(tree: Path, out: Path) -> subprocess.CompletedProcess:
    """The command by which the README builds source archive and wheel."""
    return run(sys.executable, "-m", "build", "--no-isolation", "--outdir", out, tree / "bindings/python")


def tree_of(root: Path, tree: Path) -> Path:
    """What the build needs of the repository, elsewhere, since it leaves files behind; the links stay links."""
    shutil.copytree(root / "bindings/python", tree / "bindings/python", symlinks=True,
                    ignore=shutil.ignore_patterns("*.egg-info", "build", "__pycache__"))
    for name in ("LICENSE", "NOTICE"):
        shutil.copy(root / name, tree / name)
    return tree


def example(root: Path) -> tuple[str, str]:
    """The README's programs as one, and what it says that they print."""
    text = (root / "bindings/python/README.md").read_text()
    return "".join(re.findall(r"```python\n(.*?)```", text, re.S)), "".join(re.findall(r"```text\n(.*?)```", text, re.S))


@pytest.fixture(scope="module")
def built(root, library, archive, tmp_path_factory) -> Path:
    """A folder with the source archive, and the wheel that was built from it."""
    home = tmp_path_factory.mktemp("package")
    (tree_of(root, home) / "target").symlink_to(root / "target")
    done = build(home, home / "dist")
    assert done.returncode == 0, done.stdout + done.stderr
    return home / "dist"


@pytest.fixture(scope="module")
def installed(built, tmp_path_factory) -> Path:
    """The wheel, installed into a folder of its own."""
    site = tmp_path_factory.mktemp("site")
    wheel, = built.glob("*.whl")
    done = run(sys.executable, "-m", "pip", "install", "--no-index", "--no-deps", "--no-compile", "--target", site, wheel)
    assert done.returncode == 0, done.stdout + done.stderr
    return site


def test_the_version_is_the_librarys(version):
    assert trufolmesca.__version__ == version


def test_the_wheel_is_of_this_platform_and_carries_the_library(built, library, version):
    assert {path.name for path in built.iterdir()} == {
        f"trufolmesca-{version}.tar.gz", f"trufolmesca-{version}-py3-none-linux_x86_64.whl"}
    with zipfile.ZipFile(next(built.glob("*.whl"))) as wheel:
        assert CARRIED <= set(wheel.namelist())
        assert wheel.read("trufolmesca/libtrufolmesca.so.0") == library.read_bytes()
        metadata = message_from_bytes(wheel.read(f"trufolmesca-{version}.dist-info/METADATA"))
        assert f"trufolmesca-{version}.dist-info/LICENSE" in wheel.namelist()
    assert (metadata["Name"], metadata["Version"], metadata["License"]) == ("trufolmesca", version, "MIT")
    assert metadata["Requires-Python"] == ">=3.11" and metadata["Requires-Dist"].startswith("numpy")
    assert "# trufolmesca for Python" in metadata.get_payload()


def test_the_source_archive_carries_files_and_no_links(built, version):
    with tarfile.open(next(built.glob("*.tar.gz"))) as archive:
        members = {member.name: member for member in archive}
    for name in CARRIED | {"LICENSE", "NOTICE", "README.md", "pyproject.toml", "setup.py"}:
        assert members[f"trufolmesca-{version}/{name}"].isfile(), name


def test_without_a_library_nothing_is_built(root, tmp_path):
    done = build(tree_of(root, tmp_path), tmp_path / "dist")
    assert done.returncode != 0 and not (tmp_path / "dist").exists()
    assert "trufolmesca/libtrufolmesca.so.0 is not there: run tools/setup" in done.stdout + done.stderr


def test_installed_it_works_without_repository_and_variables(installed, root, archive, tmp_path):
    program, output = example(root)
    shutil.copytree(root / "examples", tmp_path / "examples")
    (tmp_path / "example.py").write_text(f"import sys\nsys.path.insert(0, {str(installed)!r})\n{program}"
                                         "print(trufolmesca.library_path(), trufolmesca.archive_sha256())\n")
    done = run(sys.executable, "-I", "-B", "example.py", cwd=tmp_path)
    proved = sha256(archive.read_bytes()).hexdigest()
    assert done.stderr == "" and done.stdout == f"{output}{installed}/trufolmesca/libtrufolmesca.so.0 {proved}\n"


def test_the_type_hints_are_strict_for_the_package_and_its_users(installed, root, tmp_path):
    user = tmp_path / "user.py"
    user.write_text(f"{example(root)[0]}reveal_type(answer.marks.sheet)\nreveal_type(trufolmesca.sqrt(2.0))\ntrufolmesca.sqrt('2')\n")
    done = subprocess.run(["mypy", "--strict", "--cache-dir", root / "target/mypy", installed / "trufolmesca", user],
                          env={**WITHOUT_LIBRARY, "MYPYPATH": str(installed)}, capture_output=True, text=True, cwd=tmp_path)
    errors = [line for line in done.stdout.splitlines() if ": error:" in line]
    assert len(errors) == 1 and 'incompatible type "str"; expected "float"' in errors[0], done.stdout + done.stderr
    assert "ndarray[Any, " in done.stdout and 'Revealed type is "builtins.float"' in done.stdout
