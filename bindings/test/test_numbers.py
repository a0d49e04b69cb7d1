"""The numbers: names, values and words are the same wherever they stand."""
from __future__ import annotations

import re
import subprocess

from trufolmesca import WORDS, Number

NAMES = {number.name: number.value for number in Number}
SENTENCES = {number.value: WORDS[number] for number in Number}

PROGRAM = """
#include <stdio.h>
#include <trufolmesca.h>
int main(void) {
    for (uint32_t number = 0; number <= %d; ++number) printf("%%u %%s\\n", (unsigned)number, trufolmesca_word(number));
    return 0;
}
"""


def test_the_names_in_rattle_are_pythons(root):
    source = (root / "crates/number/src/lib.rt").read_text()
    answer = re.search(r"^pub const (ANSWER): u32 = (\d+);", source, re.M).groups()
    refusals = re.findall(r"^ +Refusal::(\w+) => (\d+),", source, re.M)
    assert {name.upper(): int(value) for name, value in [answer, *refusals]} == NAMES


def test_pythons_numbers_have_a_word_each():
    assert list(WORDS) == list(range(len(NAMES))) and len(set(WORDS.values())) == len(NAMES)


def test_the_names_in_the_header_are_pythons(root):
    header = (root / "bindings/trufolmesca.h").read_text()
    assert {name: int(value) for name, value in re.findall(r"^ +TRUFOLMESCA_(\w+) = (\d+)", header, re.M)} == NAMES


def test_the_words_in_c_are_pythons(compiled, tmp_path):
    source = tmp_path / "words.c"
    source.write_text(PROGRAM % len(NAMES))
    lines = subprocess.run([compiled(source)], capture_output=True, text=True, check=True).stdout.splitlines()
    *said, unknown = (line.partition(" ")[2] for line in lines)
    assert said == list(SENTENCES.values()) and unknown not in said


def test_the_names_and_words_in_rust_are_pythons(root):
    source = (root / "bindings/rust/src/numbers.rs").read_text()
    found = re.findall(r'^    (\d+) ([A-Z]+) "((?:[^"\\]|\\\n)*)"', source, re.M)
    refusals = [(int(number), name, re.sub(r"\\\n *", "", word)) for number, name, word in found]
    assert refusals == [(number.value, number.name, WORDS[number]) for number in Number if number != Number.ANSWER]


def test_the_names_and_words_of_the_manual_page_are_pythons(root):
    page = (root / "packaging/man/trufolmesca.3").read_text()
    found = re.findall(r"^\.It (\d+) Dv TRUFOLMESCA_(\w+)\n((?:[^.\n].*\n)+)", page, re.M)
    said = [(int(number), name, " ".join(word.split())) for number, name, word in found]
    assert said == [(number.value, number.name, WORDS[number]) for number in Number]


def test_the_guide_has_every_number(root):
    chapter = (root / "docs/GUIDE.md").read_text().split("### Every number in words")[1].split("\n## ")[0]
    table = {name.upper(): int(number) for number, name in re.findall(r"^\| (\d+) \| (\w+) \|", chapter, re.M)}
    assert table.items() <= NAMES.items()
    calls = chapter.split("belong to single calls")[1]
    assert set(NAMES.values()) - set(table.values()) == {int(number) for number in re.findall(r"\b\d+\b", calls)}
