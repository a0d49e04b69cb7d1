"""The boundary to C: calls between pages that may not be touched, threads, small stacks, and planted faults that must be found."""
from __future__ import annotations

import re
import subprocess
from pathlib import Path

import pytest

HERE = Path(__file__).resolve().parent / "boundary"
FLAGS = ["-O2", "-std=c11", "-D_GNU_SOURCE", "-pthread", "-Wall", "-Wextra", "-Wpedantic", "-Wconversion", "-Werror"]
STACK = 20 * 1024  # bytes that the header promises to suffice
LISTS = {"BYTES": "bytes", "MODULES": "modules", "FIRST": "the first list", "SECOND": "the second list", "THIRD": "the third list",
         "SCAN": "the scan", "CARD": "the card", "VALUES": "values", "COUNTS": "counts", "SHEET": "the sheet", "COPY": "the copy", "HEIGHTS": "the heights",
         "RESULT": "the result card"}
JOBS = 300_000  # each is two calls: lists at the front and at the back of their pages


def ran(*words: object, **how) -> subprocess.CompletedProcess:
    """A command that was run, with what it printed."""
    return subprocess.run([str(word) for word in words], capture_output=True, text=True, **how)


def compile_one(source: Path, out: Path, root: Path, *options: str) -> Path:
    """The object of a source of the harness."""
    done = ran("cc", *FLAGS, f"-I{root / 'bindings'}", *options, "-c", source, "-o", out)
    assert done.returncode == 0, done.stderr
    return out


def link(program: Path, *parts: object) -> Path:
    """A program of these parts."""
    done = ran("cc", "-pthread", *parts, "-lm", "-o", program)
    assert done.returncode == 0, done.stderr
    return program


@pytest.fixture(scope="module")
def home(tmp_path_factory) -> Path:
    """Where the programs of this file are built."""
    return tmp_path_factory.mktemp("boundary")


@pytest.fixture(scope="module")
def objects(home, root) -> list[Path]:
    """The harness's objects, without the planted faults."""
    sources = [source for source in sorted(HERE.glob("*.c")) if source.name != "planted.c"]
    return [compile_one(source, home / f"{source.stem}.o", root) for source in sources]


@pytest.fixture(scope="module")
def boundary(home, objects, archive) -> Path:
    """The harness over the static library."""
    return link(home / "boundary", *objects, archive)


def tally_of(printed: str) -> dict[str, dict[int, int]]:
    """How often each call returned each number."""
    lines = re.findall(r"^(\w+):((?: \d+=\d+)+)$", printed, re.M)
    return {name: {int(n): int(k) for n, k in re.findall(r"(\d+)=(\d+)", counts)} for name, counts in lines}


def stack_of(printed: str) -> dict[str, int]:
    """How many bytes of stack each call used."""
    return {name: int(used) for name, used in re.findall(r"^(\w+): (\d+) bytes$", printed, re.M)}


def test_calls_touch_what_they_are_lent_alone(boundary):
    done = ran(boundary, "calls", 1, JOBS)
    assert done.returncode == 0, done.stdout
    assert done.stdout.endswith(f"\n{2 * JOBS} calls, 0 numbers not reached\n")
    tally = tally_of(done.stdout)
    assert len(tally) == 25 and sum(sum(counts.values()) for counts in tally.values()) == 2 * JOBS >= 500_000
    for name, counts in tally.items():
        behind_the_checks = sum(times for number, times in counts.items() if number == 0 or number >= 8 and number != 25)
        assert behind_the_checks > sum(counts.values()) / 2, f"{name} is mostly refused at its entry"


def test_threads_on_their_own_buffers_give_what_one_gives(boundary):
    done = ran(boundary, "threads", 2, 8000)
    assert done.returncode == 0, done.stdout
    assert done.stdout == "4 threads of 16000 calls give what one gives\n"


def test_twenty_kilobytes_of_stack_suffice(boundary):
    done = ran(boundary, "stack", 3, 30_000)
    assert done.returncode == 0, done.stdout
    used = stack_of(done.stdout)
    assert len(used) == 25 and max(used.values()) <= STACK


def test_twenty_kilobytes_suffice_for_the_shared_object(home, objects, library):
    """Also at the first call."""
    program = link(home / "boundary_shared", *objects, library, f"-Wl,-rpath,{library.parent}")
    done = ran(program, "stack", 1, 6000)
    assert done.returncode == 0, done.stdout
    assert len(stack_of(done.stdout)) == 25


@pytest.fixture(scope="module")
def faulty(home, objects, archive, root):
    """The harness over a library into which a fault of this name was put, in this list."""
    def build(fault: str, where: str) -> Path:
        name = f"{fault}_{where}"
        planted = compile_one(HERE / "planted.c", home / f"{name}.o", root, f"-DPLANTED={fault}", f"-DIN={where}")
        return link(home / name, *objects, planted, "-Wl,--wrap=make_call", archive)
    return build


@pytest.mark.parametrize("where", LISTS)
def test_a_byte_too_far_is_found_in_every_list(faulty, where):
    behind = ran(faulty("READS_BEHIND", where), "calls", 1, 300)
    assert behind.returncode == 3 and re.match(rf"FAULT, at byte (\d+) of {LISTS[where]}, which has \1\n", behind.stdout)
    before = ran(faulty("READS_BEFORE", where), "calls", 1, 300)
    assert before.returncode == 3 and before.stdout.startswith(f"FAULT, at byte -1 of {LISTS[where]}, which has ")


@pytest.mark.parametrize(("fault", "where", "mode", "status", "said"), [
    ("WRITES_BEHIND_VALUES", "VALUES", "calls", 1, "WRONG: the values are not written as the header says"),
    ("WRITES_A_LIST", "BYTES", "calls", 1, "WRONG: a list that is read was changed"),
    ("WRITES_A_LIST", "THIRD", "calls", 1, "WRONG: a list that is read was changed"),
    ("WRITES_A_LIST", "SCAN", "calls", 1, "WRONG: a list that is read was changed"),
    ("MARKS_A_REFUSAL", "SHEET", "calls", 1, "WRONG: the sheet was written where it must stay"),
    ("MARKS_A_REFUSAL", "COPY", "calls", 1, "WRONG: the copy was written where it must stay"),
    ("LEAVES_OUT", "VALUES", "calls", 1, "WRONG: the values are not written as the header says"),
    ("LEAVES_OUT", "COUNTS", "calls", 1, "WRONG: the counts are not written as the header says"),
    ("LEAVES_OUT", "SHEET", "calls", 1, "WRONG: "),
    ("LEAVES_OUT", "HEIGHTS", "calls", 1, "WRONG: the scan is not smoothed as the header says"),
    ("GOES_BY_ADDRESS", "VALUES", "calls", 1, "WRONG: the answer depends on where the lists lie"),
    ("NEEDS_STACK", "VALUES", "stack", 3, "FAULT\n"),
    ("KEEPS_STATE", "VALUES", "threads", 1, "WRONG: "),
])
def test_a_planted_fault_is_found(faulty, fault, where, mode, status, said):
    done = ran(faulty(fault, where), mode, 1, 3000)
    assert done.returncode == status and said in done.stdout, done.stdout
    assert "\ntrufolmesca_" in done.stdout


def test_the_call_that_failed_can_be_made_again(faulty):
    program = faulty("MARKS_A_REFUSAL", "SHEET")
    first = ran(program, "calls", 5, 3000).stdout
    again = re.search(r"^again: boundary (again \d+ \d+)$", first, re.M)
    assert ran(program, *again[1].split()).stdout == first


def test_a_call_by_itself_is_printed(boundary):
    done = ran(boundary, "again", 1, 9)
    assert done.returncode == 0 and done.stdout.startswith("trufolmesca_scaled: ") and done.stdout.endswith("\nnumber 0\n")
