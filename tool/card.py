"""A result card of either form: checked by the library, printed, and written in the other form."""
from __future__ import annotations

import struct
from dataclasses import dataclass
from pathlib import Path

from trufolmesca import OLDER_RESULT_CARD_SIZE, Number, Refused, narrow_result_card, widen_result_card

from tool import Unanswered, printable
from tool.record import write_whole

CORNERS = struct.Struct("<3x8d")                  # behind the head of each field
EDGES = struct.Struct("<3x" + 4 * "HHHB")
FLAGS = struct.Struct("<3x4B")


@dataclass(frozen=True)
class ResultCard:
    """A card as it was read, and its fields."""

    older: bool
    newer: bytes
    corners: list[tuple[float, float]]
    edges: list[tuple[int, int, int, int]]
    flags: list[int]


def read_card(contents: bytes) -> ResultCard:
    """The card in a file's bytes. Whether it is one the library says, by 23."""
    older = len(contents) == OLDER_RESULT_CARD_SIZE
    newer = widen_result_card(contents) if older else contents
    if not older:
        _narrowed(newer)
    corners = CORNERS.unpack_from(newer)
    edges = EDGES.unpack_from(newer, CORNERS.size)
    return ResultCard(older, newer, list(zip(corners[::2], corners[1::2])), [edges[4 * e:4 * e + 4] for e in range(4)],
                      list(FLAGS.unpack_from(newer, CORNERS.size + EDGES.size)))


def _narrowed(newer: bytes) -> bytes | None:
    """A newer card in the older form; none where a count is above 255, which is no fault of the card."""
    try:
        return narrow_result_card(newer)
    except Refused as refusal:
        if refusal.number == Number.COUNT:
            return None
        raise


def lines_of(card: ResultCard) -> list[str]:
    """What a card says, a line for each corner and each edge."""
    form = "one byte a count" if card.older else "two bytes a count"
    corners = [f"corner {i}: ({x!r}, {y!r}), {'refined' if flag else 'not refined'}" for i, ((x, y), flag) in enumerate(zip(card.corners, card.flags))]
    edges = [f"edge {i}: {probed} probed, {fit} in the line, {dropped} dropped, {'valid' if valid else 'not valid'}"
             for i, (probed, fit, dropped, valid) in enumerate(card.edges)]
    return [f"a result card, {form}", *corners, *edges]


def print_card(path: Path, newer: Path | None, older: Path | None) -> str:
    """Writes a file's card in the forms that are asked for, and gives what it says."""
    for out in (newer, older):
        if out is not None and out.resolve() == path.resolve():
            raise Unanswered(f"{out} is what would be written over: name another file")
    try:
        card = read_card(path.read_bytes())
        narrowed = None if older is None else narrow_result_card(card.newer)
    except Refused as refusal:
        raise Unanswered(str(refusal), refusal.number) from None
    if newer is not None:
        write_whole(newer, card.newer)
    if older is not None:
        write_whole(older, narrowed)
    return "\n".join(printable(line) for line in lines_of(card))
