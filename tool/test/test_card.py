"""The command card: what it says of either form, what it writes, what it refuses."""
from __future__ import annotations

import math
import struct

import pytest

CORNERS = [(41.25, 36.75), (196.5, -0.0), (1e-310, math.inf), (33.4, 187.1)]
EDGES = [(28, 27, 1, 1), (23, 23, 0, 1), (2, 0, 2, 0), (255, 200, 55, 1)]
FLAGS = (1, 0, 1, 1)


def card(form: str, edges=EDGES, flags=FLAGS) -> bytes:
    """A result card in a form of struct: B for a byte a count, H for two."""
    fields = [(16, struct.pack("<8d", *(x for place in CORNERS for x in place))),
              ({"B": 17, "H": 19}[form], b"".join(struct.pack(f"<3{form}B", *edge) for edge in edges)), (18, bytes(flags))]
    return b"".join(struct.pack("<BH", tag, len(contents)) + contents for tag, contents in fields)


@pytest.mark.parametrize("form, said", [("B", "one byte a count"), ("H", "two bytes a count")])
def test_a_card_is_said_and_written_in_both_forms(archive, form, said):
    path = archive.add("a.card", card(form))
    assert archive.run("card", path, "--newer", archive.home / "n.card", "--older", archive.home / "o.card") == 0
    assert archive.said == (f"a result card, {said}\n"
                            "corner 0: (41.25, 36.75), refined\ncorner 1: (196.5, -0.0), not refined\n"
                            "corner 2: (1e-310, inf), refined\ncorner 3: (33.4, 187.1), refined\n"
                            "edge 0: 28 probed, 27 in the line, 1 dropped, valid\nedge 1: 23 probed, 23 in the line, 0 dropped, valid\n"
                            "edge 2: 2 probed, 0 in the line, 2 dropped, not valid\nedge 3: 255 probed, 200 in the line, 55 dropped, valid\n")
    assert (archive.home / "n.card").read_bytes() == card("H") and (archive.home / "o.card").read_bytes() == card("B")
    assert path.read_bytes() == card(form)


def test_a_count_above_255_is_said_and_has_no_older_form(archive):
    path = archive.add("a.card", card("H", [(300, 280, 20, 1), *EDGES[1:]]))
    assert archive.run("card", path) == 0 and "edge 0: 300 probed, 280 in the line, 20 dropped, valid" in archive.said
    assert archive.run("card", path, "--older", archive.home / "o.card") == 1
    assert archive.complained == f"trufolmesca: {path}: refused by 24: a count is above 255, and the older form has no room for it\n"
    assert not (archive.home / "o.card").exists()


@pytest.mark.parametrize("contents", [b"", b"x", card("B")[:-1], card("H") + b"\0", card("H", flags=(1, 0, 2, 1)),
                                      card("B", [*EDGES[:3], (1, 1, 0, 7)]), b"\x11" + card("B")[1:], card("B")[:67] + card("H")[67:] + b"\0"])
def test_what_is_no_card_is_refused(archive, contents):
    path = archive.add("a.card", contents)
    assert archive.run("card", path, "--newer", archive.home / "n.card") == 1
    assert archive.complained == f"trufolmesca: {path}: refused by 23: the result card is malformed, or of the other form\n"
    assert [found.name for found in archive.home.iterdir()] == ["a.card"]


def test_no_card_is_written_over(archive):
    path = archive.add("a.card", card("B"))
    assert archive.run("card", path, "--newer", path) == 1 and "would be written over" in archive.complained
    assert path.read_bytes() == card("B")
    assert archive.run("card", archive.home / "none.card") == 1
    assert archive.complained == f"trufolmesca: {archive.home}/none.card: no such file or directory\n"
