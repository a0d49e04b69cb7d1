"""make install and make uninstall: a program is built against the installed tree in each way, and nothing is left behind."""
from __future__ import annotations

import hashlib
import json
import re
import shutil
from pathlib import Path

import pytest
from installing import EXAMPLE_PRINTS, ROOT, entries, example, make, plain, run, said

PREFIX = "/opt/trufolmesca"  # as it is installed for; the tests use it under a folder of their own

CMAKE = """\
cmake_minimum_required(VERSION 3.18)
project(square C)
find_package(trufolmesca 0.1 REQUIRED)
foreach(way trufolmesca static)
  add_executable(square_${way} square.c)
  target_link_libraries(square_${way} PRIVATE trufolmesca::${way})
endforeach()
"""


@pytest.fixture(scope="module")
def root(tmp_path_factory) -> Path:
    """A folder into which the library was installed for PREFIX."""
    folder = tmp_path_factory.mktemp("root")
    done = make("install", f"DESTDIR={folder}", f"PREFIX={PREFIX}")
    assert done.returncode == 0, done.stderr
    return folder


@pytest.fixture(scope="module")
def prefix(root: Path) -> Path:
    """The prefix as it stands there: elsewhere than it was installed for."""
    return root / PREFIX.lstrip("/")


def test_by_hand(prefix, tmp_path):
    program = tmp_path / "square"
    said("cc", "-Wall", "-Wextra", "-Werror", f"-I{prefix}/include", example(tmp_path), f"-L{prefix}/lib", "-ltrufolmesca", "-o", program)
    assert said(program, env=plain(LD_LIBRARY_PATH=prefix / "lib")) == EXAMPLE_PRINTS
    assert "libtrufolmesca.so.0" in run(program, env=plain()).stderr  # by its soname, and not by the file's name


def test_by_the_archive(prefix, tmp_path):
    program = tmp_path / "square"
    said("cc", f"-I{prefix}/include", example(tmp_path), prefix / "lib/libtrufolmesca.a", "-o", program)
    assert said(program, env=plain()) == EXAMPLE_PRINTS


@pytest.mark.parametrize("link", [(), ("-static",)], ids=["shared", "static"])
def test_by_pkg_config(root, prefix, tmp_path, version, link):
    found = plain(PKG_CONFIG_LIBDIR=prefix / "lib/pkgconfig", PKG_CONFIG_SYSROOT_DIR=root)
    assert said("pkg-config", "--modversion", "trufolmesca", env=found).strip() == version
    asked = ["--static"] if link else []
    words = said("pkg-config", *asked, "--cflags", "--libs", "trufolmesca", env=found).split()
    program = tmp_path / "square"
    said("cc", *link, example(tmp_path), *words, "-o", program)
    assert said(program, env=plain(LD_LIBRARY_PATH="" if link else prefix / "lib")) == EXAMPLE_PRINTS


def test_by_cmake(prefix, tmp_path):
    example(tmp_path)
    (tmp_path / "CMakeLists.txt").write_text(CMAKE)
    built = tmp_path / "built"
    said("cmake", "-S", tmp_path, "-B", built, f"-DCMAKE_PREFIX_PATH={prefix}", env=plain())
    said("cmake", "--build", built, env=plain())
    for way in ("trufolmesca", "static"):
        assert said(built / f"square_{way}", env=plain()) == EXAMPLE_PRINTS


@pytest.mark.parametrize("asked, suits", [
    ("0.1", True), ("0.1.0", True), ("0.1.1", False), ("0.0.9", False), ("0.2", False), ("1.0", False)])
def test_the_version_that_cmake_asks_for(prefix, tmp_path, asked, suits):
    major, minor = asked.split(".")[:2]
    script = tmp_path / "asks.cmake"
    script.write_text(f'set(PACKAGE_FIND_VERSION {asked})\n'
                      f'set(PACKAGE_FIND_VERSION_MAJOR {major})\nset(PACKAGE_FIND_VERSION_MINOR {minor})\n'
                      f'include({prefix}/lib/cmake/trufolmesca/trufolmescaConfigVersion.cmake)\n'
                      'message("${PACKAGE_VERSION} ${PACKAGE_VERSION_COMPATIBLE}")\n')
    assert run("cmake", "-P", script).stderr.split() == [(ROOT / "VERSION").read_text().strip(), str(suits).upper()]


def test_the_shared_object_shows_the_calls_alone(prefix, archive):
    calls = {line.split()[-1] for line in said("nm", "--defined-only", "--extern-only", archive).splitlines() if " T " in line}
    shown = {line.split()[-1] for line in said("nm", "-D", "--defined-only", prefix / "lib/libtrufolmesca.so").splitlines()}
    assert shown == calls and len(calls) == 25
    assert (prefix / "lib/libtrufolmesca.a").read_bytes() == archive.read_bytes()
    assert "RWE" not in said("readelf", "-lW", prefix / "lib/libtrufolmesca.so")  # no stack that can be executed
    # bound when it is loaded: the dynamic linker needs none of a call's stack
    assert re.search(r"BIND_NOW|FLAGS_1.*NOW", said("readelf", "-dW", prefix / "lib/libtrufolmesca.so"))


def test_the_tool(prefix, version, tmp_path):
    tool = prefix / "bin/trufolmesca"
    assert "measure" in said(tool, "--help", env=plain(), cwd=tmp_path)
    assert said(tool, "--version", env=plain(), cwd=tmp_path) == f"trufolmesca {version}\n"
    said(tool, "measure", ROOT / "examples/find.jpg", "--out", tmp_path / "out", env=plain(), cwd=tmp_path)
    record = json.loads((tmp_path / "out/find.json").read_text())
    assert record["number"] == 0 and abs(record["corners"][0][0] - 1256.2585) < 0.05
    archive = hashlib.sha256((prefix / "lib/libtrufolmesca.a").read_bytes()).hexdigest()
    assert record["versions"]["library_archive_sha256"] == archive
    assert f"archive    sha256 {archive}\n" in (prefix / "share/doc/trufolmesca/BUILD").read_text()


def test_a_missing_package_is_named(prefix):
    done = run("/usr/bin/python3", "-S", prefix / "bin/trufolmesca", "--help", env=plain())  # -S: without Debian's modules
    assert done.returncode == 2 and done.stdout == ""
    assert "python3-opencv" in done.stderr and "apt-get install" in done.stderr and done.stderr.count("\n") == 1


def test_uninstall_takes_away_what_install_put(tmp_path):
    home = tmp_path / "home"
    (home / "include").mkdir(parents=True)  # was there, and empty
    (home / "lib/pkgconfig").mkdir(parents=True)
    (home / "lib/pkgconfig/other.pc").write_text("another's\n")
    before = entries(home)
    for _ in range(2):  # a second time over the first
        assert make("install", f"PREFIX={home}").returncode == 0
    assert "share/man/man3/trufolmesca_map.3" in entries(home)
    said("/usr/bin/python3", home / "bin/trufolmesca", "--help", env=plain())
    assert any("__pycache__" in name for name in entries(home))
    assert make("uninstall", f"PREFIX={home}").returncode == 0
    assert entries(home) == before
    again = make("uninstall", f"PREFIX={home}")
    assert again.returncode != 0 and "nothing is installed" in again.stderr


def test_another_version_is_replaced(tmp_path):
    home = tmp_path / "home"
    assert make("install", f"PREFIX={home}").returncode == 0
    installed = home / "lib/trufolmesca/INSTALLED"
    (home / "share/older").mkdir()
    for name in ("lib/libtrufolmesca.so.0.0.9", "share/older/page"):
        (home / name).write_text("of an older version\n")
    installed.write_text(installed.read_text() + f"{home}/lib/libtrufolmesca.so.0.0.9\n{home}/share/older/\n{home}/share/older/page\n")
    assert make("install", f"PREFIX={home}").returncode == 0
    assert not (home / "lib/libtrufolmesca.so.0.0.9").exists() and not (home / "share/older/page").exists()
    assert make("uninstall", f"PREFIX={home}").returncode == 0
    assert not home.exists()  # all of it was made by the first


def test_an_install_that_fails_is_said_and_can_be_taken_away(tmp_path):
    home = tmp_path / "home"
    (home / "lib").mkdir(parents=True)
    (home / "lib/cmake").write_text("a file in the way\n")
    before = entries(home)
    done = make("install", f"PREFIX={home}")
    assert done.returncode != 0 and "cmake" in done.stderr and "make uninstall takes away what was" in done.stderr
    assert (home / "include/trufolmesca.h").exists()
    assert make("uninstall", f"PREFIX={home}").returncode == 0
    assert entries(home) == before


def test_a_full_disk_is_said(tmp_path):
    home = tmp_path / "home"
    # No file may grow past 8 KiB, as on a disk that is full.
    done = run("sh", "-c", f"trap '' XFSZ; ulimit -f 16; exec packaging/install put '' {home} {home}/lib", cwd=ROOT, env=plain())
    assert done.returncode != 0 and "File too large" in done.stderr and "make uninstall takes away what was" in done.stderr
    assert make("uninstall", f"PREFIX={home}").returncode == 0 and not home.exists()


@pytest.mark.parametrize("wrong", ["usr/local", "/opt/two words", "/opt/$x"])
def test_a_prefix_that_cannot_be(wrong):
    done = run("packaging/install", "put", "", wrong, f"{wrong}/lib", cwd=ROOT)
    assert done.returncode == 1 and done.stderr.startswith("packaging/install: PREFIX and LIBDIR ")


def test_clean_keeps_what_was_proved(tmp_path):
    for name in ("Makefile", "VERSION", "TOOLCHAIN", "crates.txt"):
        shutil.copy(ROOT / name, tmp_path / name)
    for name in ("crates/export/out/incremental", "target/examples", "target/lib", "target/deb"):
        (tmp_path / name).mkdir(parents=True)
    (tmp_path / "crates/export/out/libexport.a").write_text("an archive\n")
    said("make", "-C", tmp_path, "clean", env=plain())
    assert entries(tmp_path / "target") == {"examples"}
    assert entries(tmp_path / "crates/export/out") == {"incremental", "libexport.a"}
