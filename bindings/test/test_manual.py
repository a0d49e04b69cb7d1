"""The man pages: the formatters find no fault, and the library's page has every call of the header."""
from __future__ import annotations

import re

import pytest
from installing import MANUAL, ROOT, run

PAGES = [ROOT / "packaging/man/trufolmesca.1", MANUAL]
# Of pages that belong to a system: that theirs is named, and that the other page is not installed on this machine.
OF_A_SYSTEM = ("operating system explicitly specified", "referenced manual not found: Xr trufolmesca")


@pytest.mark.parametrize("page", PAGES, ids=lambda page: page.name)
def test_formatters_find_no_fault(page):
    done = run("groff", "-ww", "-z", "-mandoc", "-Tutf8", page)
    assert done.returncode == 0 and done.stderr == ""
    lint = run("mandoc", "-T", "lint", "-W", "all", page)
    said = (lint.stdout + lint.stderr).splitlines()
    assert [line for line in said if not any(words in line for words in OF_A_SYSTEM)] == []


def test_the_page_has_every_call_of_the_header():
    header = re.sub(r"/\*.*?\*/", "", (ROOT / "bindings/trufolmesca.h").read_text(), flags=re.S)
    declared = dict(re.findall(r"\b(?:uint32_t |void |double |char \*)(trufolmesca_\w+)\(([^()]*)\)\s*[;{]", header))
    page = MANUAL.read_text()
    named = re.findall(r"^\.Nm (trufolmesca_\w+)", page.split(".Nd ")[0], re.M)
    inner = {"trufolmesca_lists_of", "trufolmesca_answer_of"}
    assert set(named) == set(declared) - inner and len(named) == len(set(named))
    assert all(f".Fn {name}" in page for name in inner)
    for name in named:
        shown = re.search(rf"^\.F[on] {name}\b(.*?)(?=^\.Ft|^\.Sh)", page, re.S | re.M)[1]
        parameters = [" ".join(parameter.split()) for parameter in declared[name].split(",")]
        assert re.findall(r'"([^"]*)"', shown) == parameters, name


@pytest.mark.parametrize("command, one", [("measure", "--side-mm"), ("smooth", "--window"), ("card", "--older")])
def test_the_tools_page_has_every_option(command, one):
    shown = run("/usr/bin/python3", ROOT / "trufolmesca", command, "--help").stdout
    options = set(re.findall(r"--[a-z-]+", shown))
    page = PAGES[0].read_text().replace("\\-", "-")
    assert one in options and all(f"Fl {option[1:]}" in page for option in options)
