"""A call that gives no answer: the exception, and what a marking call leaves all the same."""
from __future__ import annotations

from dataclasses import dataclass

import numpy as np
from numpy.typing import NDArray

from .numbers import Number, word_of


@dataclass(frozen=True, eq=False)
class Marks:
    """What a marking call writes: the sheet, 1 where a pixel was read, and the copy, 0 where none was."""

    sheet: NDArray[np.uint8]
    copy: NDArray[np.uint8]


class Refused(ValueError):
    """A call that gave no answer: `number` and `word` say why.

    `marks` are the sheet and the copy of a marking call that had begun to read, which is any refused
    behind 7, as 8, 9, 10 and 11 are; otherwise None.
    """

    def __init__(self, number: int, marks: Marks | None = None):
        self.number = number
        self.word = word_of(number)
        self.marks = marks
        super().__init__(f"refused by {number}: {self.word}")

    def __reduce__(self) -> tuple[type[Refused], tuple[int, Marks | None]]:
        """How it is pickled, so that a worker process can hand it on."""
        return type(self), (self.number, self.marks)


def demand(number: int, marks: Marks | None = None) -> None:
    """Raises Refused unless the number is that of an answer, with the marks if the call wrote them."""
    if number != Number.ANSWER:
        raise Refused(number, marks if number > Number.SHEET and number != Number.SETTINGS else None)
