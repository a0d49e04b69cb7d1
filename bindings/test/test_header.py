"""The C header: it compiles without a warning as C and C++, warns of what is left unread and of null, and has its words and versions."""
from __future__ import annotations

import re
import subprocess
from pathlib import Path

import pytest
from trufolmesca.numbers import WORDS

WARNINGS = ["-Wall", "-Wextra", "-Wpedantic", "-Wconversion"]
LANGUAGES = [("gcc", "c", "c99"), ("clang", "c", "c99"), ("g++", "c++", "c++17"), ("clang++", "c++", "c++17")]
each_compiler = pytest.mark.parametrize(("compiler", "language", "standard"), LANGUAGES)

USING_ALL = """
#include "trufolmesca.h"
#include "trufolmesca.h"
#if defined TRUFOLMESCA_CALL || defined TRUFOLMESCA_WRITING || defined TRUFOLMESCA_OVER_REQUEST
#error a macro of the header is left behind
#endif
#if defined TRUFOLMESCA_ASKED || defined TRUFOLMESCA_GIVEN
#error a macro of the header is left behind
#endif
static const double defaults[TRUFOLMESCA_SETTINGS_SIZE] = TRUFOLMESCA_DEFAULT_SETTINGS;
static const struct trufolmesca_settings settings = TRUFOLMESCA_DEFAULT_SETTINGS;
int main(void) {
    struct trufolmesca_request request = {{0, 0, 0, 0, 0}, {0, 0, 0}, 1, 1, {{0, 0}, {0, 0}, {0, 0}, {0, 0}}, false, 0, &settings};
    struct trufolmesca_answer answer;
    double list[TRUFOLMESCA_SETTINGS_SIZE];
    trufolmesca_settings_list(&settings, list);
    for (int i = 0; i < TRUFOLMESCA_SETTINGS_SIZE; ++i)
        if (list[i] != defaults[i]) return 1;
    uint32_t number = trufolmesca_refine(&request, &answer) + trufolmesca_refine_marking(&request, &answer, 0, 0, 0, 0);
    return trufolmesca_word(number)[0] == 'x' || trufolmesca_sqrt(4) != 2;
}
"""


def prototypes(root: Path) -> list[tuple[str, str, list[str]]]:
    """The library's calls as the header declares them: what each returns, its name, its parameters."""
    header = (root / "bindings/trufolmesca.h").read_text()
    found = re.findall(r"^(?:TRUFOLMESCA_\w+ )?(uint32_t|void|double) trufolmesca_(\w+)\(([^)]*)\);", header, re.M)
    return [(result, name, [parameter.strip() for parameter in parameters.split(",")]) for result, name, parameters in found]


def compiler_on(source: str, home: Path, root: Path, compiler: str, language: str, standard: str, *more: object):
    """The compiler's verdict on a source, which stands in a file of its own."""
    path = home / f"source.{language}"
    path.write_text(source)
    words = [compiler, f"-std={standard}", "-O2", *WARNINGS, f"-I{root / 'bindings'}", "-x", language, path, "-x", "none", *more]
    return subprocess.run([str(word) for word in words], capture_output=True, text=True)


def warned_lines(source: str, home: Path, root: Path, compiler: str, language: str, standard: str, option: str) -> set[int]:
    """The lines of a source that this warning names."""
    done = compiler_on(source, home, root, compiler, language, standard, "-c", "-o", home / "source.o")
    assert done.returncode == 0, done.stderr
    said = re.findall(rf"source\.[c+]+:(\d+):\d+: warning: .*\[-W{option}[=\]]", done.stderr)
    return {int(line) for line in said}


def program(lines: list[str]) -> str:
    """A program that makes these calls, the first in its fifth line."""
    lists = "const uint8_t *in_bytes, const uint16_t *in_heights, const double *in_floats"
    names = f"{lists}, uint8_t *bytes, uint16_t *heights, double *floats, uint32_t *counts"
    return "\n".join(["#include <trufolmesca.h>", f"void calls({names});", f"void calls({names}) {{",
                      "(void)in_bytes, (void)in_heights, (void)in_floats, (void)bytes, (void)heights, (void)floats, (void)counts;", *lines, "}", ""])


def argument(parameter: str) -> str:
    """Something to pass for a parameter."""
    kind = parameter.rsplit(" ", 1)[0] + ("*" if "*" in parameter else "")
    pointers = {"const uint8_t*": "in_bytes", "const uint16_t*": "in_heights", "const double*": "in_floats",
                "uint8_t*": "bytes", "uint16_t*": "heights", "double*": "floats", "uint32_t*": "counts"}
    return pointers.get(kind, "0")


@each_compiler
def test_it_compiles_without_a_warning(compiler, language, standard, tmp_path, root, archive):
    done = compiler_on(USING_ALL, tmp_path, root, compiler, language, standard, "-Werror", archive, "-o", tmp_path / "all")
    assert done.returncode == 0, done.stderr
    assert subprocess.run([tmp_path / "all"]).returncode == 0


@each_compiler
def test_a_number_that_is_left_unread_is_warned_of(compiler, language, standard, tmp_path, root):
    numbered = [(name, parameters) for result, name, parameters in prototypes(root) if result == "uint32_t"]
    calls = [f"trufolmesca_{name}({', '.join(map(argument, parameters))});" for name, parameters in numbered]
    request = "struct trufolmesca_request r; struct trufolmesca_answer a;"
    short = ["trufolmesca_refine(&r, &a);", "trufolmesca_refine_marking(&r, &a, bytes, 0, bytes, 0);"]
    source = program([*calls, *short]).replace("(void)in_bytes", f"{request} (void)in_bytes")
    warned = warned_lines(source, tmp_path, root, compiler, language, standard, "unused-result")
    assert len(calls) == 20 and warned == set(range(5, 5 + len(calls) + 2))


@each_compiler
def test_a_null_pointer_is_warned_of(compiler, language, standard, tmp_path, root):
    calls = []
    for result, name, parameters in prototypes(root):
        given = [argument(parameter) for parameter in parameters]
        for at in [at for at, parameter in enumerate(parameters) if "*" in parameter]:
            passed = ", ".join([*given[:at], "NULL", *given[at + 1:]])
            calls.append(f"{'' if result == 'void' else 'counts[0] = '}trufolmesca_{name}({passed});")
    warned = warned_lines(program(calls), tmp_path, root, compiler, language, standard, "nonnull")
    assert len(calls) == 84 and warned == set(range(5, 5 + len(calls)))


def printed(body: str, tmp_path, root, archive) -> list[str]:
    """The lines that a program over the header prints."""
    source = f'#include <stdio.h>\n#include "trufolmesca.h"\nint main(void) {{ {body} return 0; }}\n'
    done = compiler_on(source, tmp_path, root, "gcc", "c", "c99", "-Werror", archive, "-o", tmp_path / "print")
    assert done.returncode == 0, done.stderr
    return subprocess.run([tmp_path / "print"], capture_output=True, text=True, check=True).stdout.splitlines()


def test_the_version_is_that_of_the_repository(version, tmp_path, root, archive):
    parts = ", ".join(f"TRUFOLMESCA_VERSION_{part}" for part in ("MAJOR", "MINOR", "PATCH"))
    body = f'puts(TRUFOLMESCA_VERSION); printf("%d.%d.%d\\n", {parts});'
    assert printed(body, tmp_path, root, archive) == [version, version]


def test_the_words_are_those_of_the_tool(tmp_path, root, archive):
    lines = printed("for (uint32_t n = 0; n < 28; ++n) puts(trufolmesca_word(n));", tmp_path, root, archive)
    assert dict(enumerate(lines[:26])) == WORDS
    assert set(lines[26:]) == {"a number that this version does not know"}


def test_every_number_has_a_comment_of_its_own(root):
    header = (root / "bindings/trufolmesca.h").read_text()
    commented = re.findall(r"^    /\* \S.*\. \*/\n    TRUFOLMESCA_\w+ = (\d+),?$", header, re.M)
    assert [int(number) for number in commented] == list(range(26))


def test_calls_over_a_request_give_what_the_long_calls_give(tmp_path, root, archive):
    source = (root / "bindings/test/request.c").read_text()
    done = compiler_on(source, tmp_path, root, "gcc", "c", "c99", "-Werror", archive, "-o", tmp_path / "request")
    assert done.returncode == 0, done.stderr
    example = [root / "examples" / f"label.{end}" for end in ("pgm", "grid", "rough")]
    run = subprocess.run([tmp_path / "request", *example], capture_output=True, text=True)
    assert run.returncode == 0, run.stdout
    assert run.stdout.splitlines() == [
        "plain: 0", "plain, marking: 0", "inverted: 9", "inverted, marking: 9", "scaled: 0", "scaled, marking: 0",
        "camera: 0", "camera, marking: 0", "lens: 0", "lens, marking: 0", "fisheye: 0", "fisheye, marking: 0",
        "fisheye without end: 6", "fisheye without end, marking: 6", "lens 3: 6", "lens 3, marking: 6",
        "no focal length: 6", "no focal length, marking: 6", "defaults: 0", "defaults, marking: 0", "defaults, fisheye: 0", "defaults, fisheye, marking: 0", "settings, fisheye: 0",
        "settings, fisheye, marking: 0", "settings: 0", "settings, marking: 0", "five rounds: 25", "five rounds, marking: 25",
        "no sheet: 7", "no copy: 7", "no modules: 3", "no bytes: 2"]
