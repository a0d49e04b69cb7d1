"""The Debian packages: what is in them, that they install and go again in a root of their own, and that they are the same each time."""
from __future__ import annotations

import gzip
import hashlib
import re
import subprocess
from pathlib import Path

import pytest
from installing import EXAMPLE_PRINTS, ROOT, example, plain, run, said

NAMES = ("libtrufolmesca0", "libtrufolmesca-dev", "trufolmesca")
LIB = "usr/lib/x86_64-linux-gnu"


def build(out: Path, umask: int = 0o022) -> dict[str, Path]:
    """The packages by their names, built into a folder."""
    said("packaging/deb", out, cwd=ROOT, env=plain(), umask=umask)
    built = {path.name.partition("_")[0]: path for path in out.glob("*.deb")}
    assert set(built) == set(NAMES)
    return built


@pytest.fixture(scope="module")
def packages(tmp_path_factory) -> dict[str, Path]:
    """The packages, built once."""
    return build(tmp_path_factory.mktemp("deb"))


@pytest.fixture(scope="module")
def contents(packages, tmp_path_factory) -> dict[str, Path]:
    """What each package holds, unpacked, its control files under DEBIAN."""
    folder = tmp_path_factory.mktemp("contents")
    for name, path in packages.items():
        said("dpkg-deb", "--raw-extract", path, folder / name)
    return {name: folder / name for name in NAMES}


def field(package: Path, name: str) -> str:
    """A field of a package's control file."""
    return said("dpkg-deb", "--field", package, name).strip()


def test_the_fields(packages, version):
    for package in packages.values():
        assert field(package, "Version") == version and field(package, "Architecture") == "amd64"
    assert field(packages["libtrufolmesca-dev"], "Depends").startswith(f"libtrufolmesca0 (= {version})")
    assert field(packages["trufolmesca"], "Depends").startswith(f"libtrufolmesca0 (= {version})")


def test_the_tool_asks_for_the_packages_that_its_script_names(packages):
    named = set(re.findall(r'"(python3-[a-z0-9-]+)"', (ROOT / "trufolmesca").read_text()))
    asked = set(re.findall(r"python3-[a-z0-9-]+", field(packages["trufolmesca"], "Depends")))
    installed = set(re.findall(r"python3-[a-z0-9-]+", re.search(r'^packages="(.*)"$', (ROOT / "tools/setup").read_text(), re.M)[1]))
    assert named == asked == installed


def test_the_shared_object_asks_for_no_newer_libc_than_its_package(contents, packages):
    needed = re.findall(r"GLIBC_([0-9.]+)", said("readelf", "-VW", contents["libtrufolmesca0"] / LIB / "libtrufolmesca.so.0"))
    newest = max(needed, key=lambda text: [int(part) for part in text.split(".")])
    assert field(packages["libtrufolmesca0"], "Depends") == f"libc6 (>= {newest})"


def test_owners_modes_and_sums(packages, contents):
    for name, package in packages.items():
        for line in said("dpkg-deb", "--contents", package).splitlines():
            mode, owner = line.split()[:2]
            assert owner == "root/root" and mode in ("drwxr-xr-x", "-rw-r--r--", "-rwxr-xr-x", "lrwxrwxrwx"), line
        sums = dict(reversed(line.split("  ")) for line in (contents[name] / "DEBIAN/md5sums").read_text().splitlines())
        files = [path for path in contents[name].rglob("*") if path.is_file() and not path.is_symlink() and "DEBIAN" not in path.parts]
        assert sums == {str(path.relative_to(contents[name])): hashlib.md5(path.read_bytes()).hexdigest() for path in files}


def test_licence_and_changes(contents, version):
    for name, folder in contents.items():
        papers = folder / "usr/share/doc" / name
        text = (papers / "copyright").read_text()
        assert (ROOT / "LICENSE").read_text() in text and (ROOT / "NOTICE").read_text() in text
        changes = gzip.decompress((papers / "changelog.gz").read_bytes()).decode()
        assert changes.startswith(f"trufolmesca ({version}) ") and "\n  * " in changes and max(map(len, changes.splitlines()[:-1])) < 80


def test_they_are_the_same_each_time(packages, tmp_path):
    again = build(tmp_path, umask=0o077)
    assert {name: path.read_bytes() for name, path in again.items()} == {name: path.read_bytes() for name, path in packages.items()}


@pytest.fixture
def scratch(tmp_path) -> Path:
    """A root of its own, where dpkg knows of the packages that ours depend on and of no other: the machine's is left alone."""
    root = tmp_path / "root"
    for name in ("info", "updates", "triggers"):
        (root / "var/lib/dpkg" / name).mkdir(parents=True)
    needed = ["libc6", "libc6-dev", "python3", *re.findall(r"python3-[a-z0-9-]+", (ROOT / "packaging/debian/control").read_text())]
    (root / "var/lib/dpkg/status").write_text(said("dpkg-query", "--status", *needed))
    return root


def dpkg(root: Path, *words: object) -> subprocess.CompletedProcess:
    """Runs dpkg on a root of its own, also where the tests are not run by root."""
    path = "/usr/sbin:/sbin:" + plain()["PATH"]
    return run("dpkg", f"--root={root}", "--force-not-root", "--force-script-chrootless", *words, env=plain(PATH=path, LC_ALL="C"))


def own(root: Path) -> set[Path]:
    """All in a root but dpkg's own notes."""
    return {path for path in root.rglob("*") if "dpkg" not in path.parts}


def test_they_install_serve_and_go(packages, scratch, tmp_path):
    before = own(scratch)
    done = dpkg(scratch, "--install", *packages.values())
    assert done.returncode == 0, done.stderr
    program = tmp_path / "square"
    found = plain(PKG_CONFIG_LIBDIR=scratch / LIB / "pkgconfig", PKG_CONFIG_SYSROOT_DIR=scratch, PKG_CONFIG_SYSTEM_INCLUDE_PATH="/none",
                  PKG_CONFIG_SYSTEM_LIBRARY_PATH="/none")  # /usr of another root is not the compiler's own
    words = said("pkg-config", "--cflags", "--libs", "trufolmesca", env=found).split()
    said("cc", example(tmp_path), *words, "-o", program)
    assert said(program, env=plain(LD_LIBRARY_PATH=scratch / LIB)) == EXAMPLE_PRINTS
    assert "measure" in said(scratch / "usr/bin/trufolmesca", "--help", env=plain())
    asks = "import trufolmesca; print(trufolmesca.sqrt(2.0))"
    assert said("/usr/bin/python3", "-c", asks, env=plain(PYTHONPATH=scratch / "usr/lib/python3/dist-packages")) == "1.4142135623730951\n"
    assert any(path.name == "__pycache__" for path in own(scratch))
    for way in ("--remove", "--purge"):
        assert dpkg(scratch, way, *reversed(NAMES)).returncode == 0
        assert own(scratch) == before


def test_the_shared_object_comes_alone(packages, scratch):
    assert dpkg(scratch, "--install", packages["libtrufolmesca0"]).returncode == 0
    files = {path.name for path in own(scratch) if path.is_file()}
    assert files == {"libtrufolmesca.so.0", "libtrufolmesca.so.0.1.0", "copyright", "changelog.gz", "BUILD"}


def test_the_tool_is_refused_without_the_library(packages, scratch):
    done = dpkg(scratch, "--install", packages["trufolmesca"])
    assert done.returncode != 0 and "depends on libtrufolmesca0" in done.stderr
