"""One version everywhere, the licence, the kit that the build demands, and two builds that are compared."""
from __future__ import annotations

import os
import re
import shutil
from pathlib import Path

import pytest
from installing import ROOT, plain, run, said

KIT = (ROOT / "TOOLCHAIN").read_text().strip()

# Stands in for rt: says that it is $KIT, notes each call, and builds an archive of the text $BYTES in the crate that it is run in, or
# fails where that is empty.
RT = """\
#!/bin/sh
echo "$*" >>"$CALLS"
case $1 in
    version) echo "$KIT" ;;
    lib)
        [ -n "$BYTES" ] || { echo "a proof fails"; exit 1; }
        mkdir -p out
        eval "echo $BYTES" >"out/lib$(basename "$PWD").a"
        ;;
esac
"""


def found(path: str, pattern: str) -> str:
    """What a pattern finds in a file of the repository."""
    return re.search(pattern, (ROOT / path).read_text(), re.M)[1]


@pytest.mark.parametrize("path, pattern", [
    ("bindings/trufolmesca.h", r'^#define TRUFOLMESCA_VERSION "(.*)"$'),
    ("bindings/rust/Cargo.toml", r'^version = "(.*)"$'),
    ("bindings/python/trufolmesca/__init__.py", r'^__version__ = "(.*)"$'),
    ("CHANGELOG.md", r"^## \[(.*)\] - \d{4}-\d\d-\d\d$"),
], ids=lambda word: word if "/" in word or ".md" in word else "")
def test_one_version(path, pattern, version):
    assert found(path, pattern) == version


def test_the_header_has_the_version_in_parts(version):
    parts = [found("bindings/trufolmesca.h", rf"^#define TRUFOLMESCA_VERSION_{part} (\d+)$") for part in ("MAJOR", "MINOR", "PATCH")]
    assert ".".join(parts) == version


def test_the_shared_object_has_the_version(version, library):
    assert library.name == f"libtrufolmesca.so.{version}"
    assert f"[libtrufolmesca.so.{version.split('.')[0]}]" in said("readelf", "-dW", library)


def test_the_licence():
    licence, notice = (ROOT / "LICENSE").read_text(), (ROOT / "NOTICE").read_text()
    for binding in ("python", "rust"):
        copies = [(ROOT / "bindings" / binding / name).read_text() for name in ("LICENSE", "NOTICE")]
        assert copies == [licence, notice], binding
    assert "Copyright (c) 2026 the Trufolmesca maintainers" in licence and "Copyright (c) 2026 Auki Labs" in notice
    assert licence[licence.index("Permission"):] == notice[notice.index("Permission"):]


def test_the_kit_is_the_one_that_is_recorded():
    if not shutil.which("rt"):
        pytest.skip("rt is not there")
    assert said("rt", "version").strip() == KIT


class Repository:
    """A small repository with the build's own files, a source, and a kit that only says what it is told to."""

    def __init__(self, home: Path):
        self.home, self.calls, self.kit, self.bytes = home / "repository", home / "calls", KIT, "archive"
        for name in ("Makefile", "VERSION", "TOOLCHAIN", "tools/archive", "tools/reproduce"):
            (self.home / name).parent.mkdir(parents=True, exist_ok=True)
            shutil.copy(ROOT / name, self.home / name)
        self.source = self.home / "crates/export/src/lib.rt"
        self.source.parent.mkdir(parents=True)
        self.source.write_text("a source\n")
        (self.home / "crates.txt").write_text("export staticlib:\n")
        (self.home / ".gitignore").write_text("target/\nout/\n")
        self.commands = home / "bin"
        self.commands.mkdir()
        (self.commands / "rt").write_text(RT)
        (self.commands / "rt").chmod(0o755)

    def run(self, *words: object):
        """Runs a command in the repository, with the kit before all others."""
        self.calls.write_text("")
        known = plain(PATH=f"{self.commands}:{os.environ['PATH']}", KIT=self.kit, CALLS=self.calls, BYTES=self.bytes)
        return run(*words, cwd=self.home, env=known)

    def built(self) -> bool:
        """Whether the last command had the archive built."""
        return self.builds() > 0

    def builds(self) -> int:
        """How often the last command had the archive built."""
        return self.calls.read_text().splitlines().count("lib --cpu x86-64")


@pytest.fixture
def repository(tmp_path) -> Repository:
    """A small repository in which nothing is built yet."""
    return Repository(tmp_path)


def test_the_recorded_kit_builds(repository):
    done = repository.run("make", "archive")
    assert done.returncode == 0 and repository.built(), done.stderr
    assert repository.run("make", "archive").returncode == 0 and not repository.built()
    kept = repository.home / "crates/export/out/kept.antt"  # the prover's own, and no source
    kept.write_text("a proof\n")
    os.utime(kept, (2e9, 2e9))
    assert repository.run("make", "archive").returncode == 0 and not repository.built()
    os.utime(repository.source, (2e9, 2e9))  # newer than the archive
    assert repository.run("make", "archive").returncode == 0 and repository.built()


def test_another_kit_is_refused(repository):
    repository.kit = "another-kit logic 0123456789abcdef"
    done = repository.run("make", "archive")
    assert done.returncode != 0 and not repository.built()
    assert repository.kit in done.stderr and KIT in done.stderr and "rt version >TOOLCHAIN" in done.stderr
    assert repository.run("sh", "-c", "rt version >TOOLCHAIN && make archive").returncode == 0 and repository.built()


def test_a_kit_that_is_missing_or_fails_is_said(repository):
    repository.bytes = ""
    done = repository.run("make", "archive")
    assert done.returncode != 0 and "a proof fails" in done.stderr and "target/lib/archive.log has it all" in done.stderr
    (repository.commands / "rt").unlink()
    for command in ("make", "sh", "dirname", "find", "cat"):
        (repository.commands / command).symlink_to(shutil.which(command))
    done = run("make", "archive", cwd=repository.home, env=plain(PATH=repository.commands))
    assert done.returncode != 0 and "rt is not there" in done.stderr


@pytest.mark.parametrize("contents, same", [("archive", True), ("$PWD", False)], ids=["the same", "with its path in it"])
def test_two_builds_are_compared(repository, contents, same):
    by = ("-c", "user.name=test", "-c", "user.email=test@example.org")
    for words in (("init", "-q"), ("add", "."), (*by, "commit", "-qm", "all")):
        assert repository.run("git", *words).returncode == 0
    repository.bytes = contents
    done = repository.run("tools/reproduce")
    assert (done.returncode == 0) == same and repository.builds() == 2, done.stderr
    assert re.search(r"^archive  sha256 [0-9a-f]{64}$", done.stdout, re.M) and KIT in done.stdout
    assert ("both builds are the same" in done.stdout) == same
