"""The stored lists that a script can work out again without a build: they are what it works out."""
from __future__ import annotations

from installing import ROOT, said


def test_the_arctangents_table_and_its_vectors():
    assert "257 entries, which obey the rule" in said(ROOT / "tools/arctan/make", "--check")
