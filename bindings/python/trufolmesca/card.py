"""Cards: a request and an answer in bytes, field by field."""
from __future__ import annotations

import numpy as np

from .library import call
from .refusal import demand

RESULT_CARD_SIZE = 105          # the bytes of a result card
OLDER_RESULT_CARD_SIZE = 93     # in the older form, whose counts have a byte each


def run_card(card: bytes) -> bytes:
    """The result card of a job card: the refinement that it asks for, without marking.

    Refused by 12 where the job card is malformed, and then as the refinement.
    """
    return _written("run_card", card, RESULT_CARD_SIZE)


def widen_result_card(card: bytes) -> bytes:
    """A result card in the older form, made one of today's; refused by 23 where it is none."""
    return _written("widen_result_card", card, RESULT_CARD_SIZE)


def narrow_result_card(card: bytes) -> bytes:
    """A result card, made one in the older form; refused by 23 where it is none of today's, then by 24."""
    return _written("narrow_result_card", card, OLDER_RESULT_CARD_SIZE)


def _written(name: str, card: bytes, size: int) -> bytes:
    """The card that a call writes to a buffer of its size."""
    out = np.zeros(size, np.uint8)
    demand(call(name, np.frombuffer(card, np.uint8), out))
    return out.tobytes()
