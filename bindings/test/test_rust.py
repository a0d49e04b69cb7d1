"""The crate of bindings/rust: its own tests, its package, and a program outside of the repository that names it as a dependency."""
from __future__ import annotations

import os
import re
import shutil
import subprocess
from collections.abc import Callable
from pathlib import Path

import pytest
from trufolmesca import Number, word_of

Run = Callable[..., subprocess.CompletedProcess]

# What a C parameter or result is in Rust.
RUST_TYPES = {
    "uint8_t": "u8", "uint32_t": "u32", "size_t": "usize", "double": "f64", "bool": "bool", "void": "",
    "const uint8_t *": "*const u8", "const uint16_t *": "*const u16", "const double *": "*const f64",
    "uint8_t *": "*mut u8", "uint16_t *": "*mut u16", "uint32_t *": "*mut u32", "double *": "*mut f64",
}

PACKAGED = {
    ".cargo_vcs_info.json", "Cargo.lock", "Cargo.toml", "Cargo.toml.orig", "LICENSE", "NOTICE", "README.md", "build.rs",
    "src/card.rs", "src/ffi.rs", "src/geometry.rs", "src/lib.rs", "src/numbers.rs", "src/photograph.rs", "src/raw.rs", "src/refinement.rs",
    "src/scan.rs", "src/settings.rs", "src/wrong_uses.rs", "tests/calls.rs", "tests/drawn/mod.rs", "tests/threads.rs",
}

MANIFEST = """
[package]
name = "outside"
edition = "2024"

[dependencies]
trufolmesca = {{ path = "{crate}" }}
"""

PROGRAM = """
use trufolmesca::{Map, Refusal};

fn main() -> Result<(), Refusal> {
    for refusal in (0..=26).filter_map(Refusal::from_number) {
        println!("{} {refusal}", refusal.number());
    }
    Map::square_to_quad(&[[1.0, 2.0]; 4]).map(|_| ())
}
"""


@pytest.fixture(scope="module")
def cargo(root) -> Run:
    """Runs a command of cargo without a network, over the library of target/lib unless told otherwise."""
    if not shutil.which("cargo"):
        pytest.fail("cargo is not there: the crate of bindings/rust is tested with Rust 1.85 or later")
    library = root / "target/lib"
    assert (library / "libtrufolmesca.a").is_file(), f"{library}/libtrufolmesca.a is not there: run make"
    ours = {"TRUFOLMESCA_LINK", "RUSTFLAGS", "RUSTDOCFLAGS", "RUSTC_BOOTSTRAP"}
    usual = {name: value for name, value in os.environ.items() if name not in ours}
    usual |= {"TRUFOLMESCA_LIB_DIR": str(library), "CARGO_TARGET_DIR": str(root / "target/cargo"),
              "CARGO_NET_OFFLINE": "true", "CARGO_TERM_COLOR": "never"}

    def run(command: str, *words: str, at: Path = root / "bindings/rust", **changes: str | None):
        environment = {name: value for name, value in (usual | changes).items() if value is not None}
        return subprocess.run(["cargo", command, *words], cwd=at, env=environment, capture_output=True, text=True)
    return run


def passed(done: subprocess.CompletedProcess) -> str:
    """What a command printed that must succeed."""
    assert done.returncode == 0, done.stdout + done.stderr
    return done.stdout


def wrong_uses(root: Path) -> int:
    """How many programs of the crate must not compile."""
    return (root / "bindings/rust/src/wrong_uses.rs").read_text().count("```compile_fail")


def test_the_calls_answer_and_refuse(cargo):
    said = passed(cargo("test", "--locked", "--tests"))
    assert len(re.findall(r"^test \w+ \.\.\. ok$", said, re.M)) >= 14


def test_documented_programs_run_and_wrong_ones_do_not_compile(cargo, root):
    # Without this variable rustdoc does not look at the number by which a program must fail.
    said = passed(cargo("test", "--locked", "--doc", RUSTC_BOOTSTRAP="1"))
    assert len(re.findall(r"^test .* - compile fail \.\.\. ok$", said, re.M)) == wrong_uses(root) >= 17
    # Each of them has the same program beside it with that one thing right.
    assert len(re.findall(r"^test src/wrong_uses\.rs - wrong_uses \(line \d+\) \.\.\. ok$", said, re.M)) >= 15
    assert len(re.findall(r"^test (?!src/wrong_uses).* \.\.\. ok$", said, re.M)) >= 11


def test_a_wrong_program_that_fails_for_another_reason_would_be_seen(cargo, tmp_path):
    source = tmp_path / "other.rs"
    source.write_text("//! ```compile_fail,E0499\n//! let number: u32 = true;\n//! ```\n")
    done = subprocess.run(["rustdoc", "--test", "--edition=2024", source], env=os.environ | {"RUSTC_BOOTSTRAP": "1"},
                          cwd=tmp_path, capture_output=True, text=True)
    assert done.returncode != 0 and "E0499" in done.stdout


@pytest.mark.parametrize("package", ["bindings/rust", "examples/rust"])
def test_clippy_has_nothing_to_say(cargo, root, package):
    if not shutil.which("cargo-clippy"):
        pytest.skip("cargo clippy is not there")
    passed(cargo("clippy", "--locked", "--all-targets", "--", "-D", "warnings", at=root / package))


def test_the_layout_is_rustfmts(cargo):
    if not shutil.which("cargo-fmt"):
        pytest.skip("cargo fmt is not there")
    passed(cargo("fmt", "--check"))


def test_the_documentation_has_no_warning(cargo):
    passed(cargo("doc", "--locked", "--no-deps", RUSTDOCFLAGS="-D warnings"))


def declared_in_c(header: str) -> dict[str, tuple[list[tuple[str, str]], str]]:
    """Each call of the library with names and types of its parameters, and its result, in Rust's words."""
    calls = {}
    for result, name, parameters in re.findall(r"^(?:TRUFOLMESCA_\w+ )?(\w+) (trufolmesca_\w+)\(([^)]*)\);", header, re.M):
        split = [re.fullmatch(r"(.*?[ *])(\w+)", " ".join(p.split())).groups() for p in parameters.split(",")]
        calls[name] = [(of, RUST_TYPES[type_.strip() if "*" not in type_ else type_]) for type_, of in split], RUST_TYPES[result]
    return calls


def declared_in_rust(source: str) -> dict[str, tuple[list[tuple[str, str]], str]]:
    """The same of the crate's declarations."""
    calls = {}
    for name, parameters, result in re.findall(r"fn (trufolmesca_\w+)\(([^)]*)\)(?: -> (\w+))?;", source):
        split = [tuple(" ".join(p.split()).split(": ")) for p in parameters.split(",") if p.strip()]
        calls[name] = split, result
    return calls


def test_declarations_are_the_headers(root):
    in_rust = declared_in_rust((root / "bindings/rust/src/ffi.rs").read_text())
    assert in_rust == declared_in_c((root / "bindings/trufolmesca.h").read_text())
    assert len(in_rust) == 25


def test_every_declared_call_is_made(root):
    called = re.findall(r"\b(?:call!\(|ffi::)(trufolmesca_\w+)", "".join(
        (root / f"bindings/rust/src/{name}.rs").read_text() for name in ("raw", "geometry")))
    assert sorted(called) == sorted(declared_in_rust((root / "bindings/rust/src/ffi.rs").read_text()))


@pytest.fixture(scope="module")
def unpacked(cargo, version, tmp_path_factory) -> Path:
    """The crate as it is packaged, unpacked outside of the repository."""
    place = tmp_path_factory.mktemp("package")
    passed(cargo("package", "--locked", "--no-verify", "--allow-dirty", CARGO_TARGET_DIR=str(place)))
    shutil.unpack_archive(place / f"package/trufolmesca-{version}.crate", place, "gztar")
    return place / f"trufolmesca-{version}"


def test_the_package_has_these_files(unpacked):
    found = {str(path.relative_to(unpacked)) for path in unpacked.rglob("*") if path.is_file()}
    # Where the sources are no checkout, cargo does not say which they are.
    assert found | {".cargo_vcs_info.json"} == PACKAGED
    assert (unpacked / "LICENSE").read_text().startswith("MIT License")


@pytest.fixture(scope="module")
def outside(unpacked) -> Path:
    """A package beside the unpacked crate that names it as a dependency."""
    place = unpacked.parent / "outside"
    (place / "src").mkdir(parents=True)
    (place / "Cargo.toml").write_text(MANIFEST.format(crate=unpacked))
    (place / "src/main.rs").write_text(PROGRAM)
    return place


def describe(place: Path, version: str) -> None:
    """Writes what pkg-config says of a library in the folder lib of a place."""
    lines = f"libdir={place}/lib", "Name: trufolmesca", "Description: corners", f"Version: {version}"
    (place / "trufolmesca.pc").write_text("\n".join(lines) + "\n")


def demand_words(program: Path, **environment: str) -> None:
    """Runs the outside program, which prints every number in words and ends with a refusal."""
    done = subprocess.run([program], env=os.environ | environment, capture_output=True, text=True)
    assert done.stdout.splitlines() == [f"{number} {word_of(number)}" for number in range(1, 27)]
    assert (done.returncode, done.stderr) == (1, f"Error: Refusal(8: {word_of(Number.QUAD)})\n")


def test_a_program_outside_links_the_installed_library(cargo, archive, version, outside, tmp_path):
    (tmp_path / "lib").mkdir()
    shutil.copy(archive, tmp_path / "lib/libtrufolmesca.a")
    describe(tmp_path, version)
    target = outside / "target"
    passed(cargo("build", at=outside, TRUFOLMESCA_LIB_DIR=None, PKG_CONFIG_PATH=str(tmp_path), CARGO_TARGET_DIR=str(target)))
    demand_words(target / "debug/outside")


def test_a_program_outside_links_the_shared_object(cargo, root, outside, tmp_path):
    passed(cargo("build", at=outside, TRUFOLMESCA_LINK="shared", CARGO_TARGET_DIR=str(tmp_path)))
    program = tmp_path / "debug/outside"
    assert b"libtrufolmesca.so.0\0" in program.read_bytes()
    demand_words(program, LD_LIBRARY_PATH=str(root / "target/lib"))


NONE = {"TRUFOLMESCA_LIB_DIR": None, "PKG_CONFIG_LIBDIR": "/nowhere", "PKG_CONFIG_PATH": None}


def test_an_installed_library_of_another_version_is_not_linked(cargo, version, outside, tmp_path):
    describe(tmp_path, "99.0.0")
    changes = NONE | {"PKG_CONFIG_LIBDIR": str(tmp_path), "CARGO_TARGET_DIR": str(outside / "target")}
    done = cargo("check", at=outside, **changes)
    assert done.returncode != 0 and f"the library, version {version.rpartition('.')[0]}, is not there" in done.stderr


@pytest.mark.parametrize("changes, sentence", [
    (NONE, "is not there: install it (make install), build it (make), or name"),
    ({"TRUFOLMESCA_LIB_DIR": "/nowhere"}, "TRUFOLMESCA_LIB_DIR names /nowhere, which has no libtrufolmesca.a"),
    ({"TRUFOLMESCA_LIB_DIR": "/nowhere", "TRUFOLMESCA_LINK": "shared"}, "/nowhere, which has no libtrufolmesca.so"),
    ({"TRUFOLMESCA_LINK": "dynamic"}, "TRUFOLMESCA_LINK is neither static nor shared"),
])
def test_a_library_that_is_not_there_is_said(cargo, outside, changes, sentence):
    done = cargo("check", at=outside, CARGO_TARGET_DIR=str(outside / "target"), **changes)
    assert done.returncode != 0 and sentence in done.stderr
