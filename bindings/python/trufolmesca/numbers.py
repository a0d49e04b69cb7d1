"""The numbers that the calls return, each in words."""
from __future__ import annotations

from enum import IntEnum


class Number(IntEnum):
    """What a call returns: 0 is an answer, any other number says why there is none."""

    ANSWER = 0
    SIZE = 1
    PHOTOGRAPH = 2
    GRID = 3
    SCALE = 4
    CORNER = 5
    LENS = 6
    SHEET = 7
    QUAD = 8
    THIN = 9
    LINE = 10
    OVERFLOW = 11
    CARD = 12
    POINTS = 13
    PAIRING = 14
    FINITE = 15
    WEIGHT = 16
    OUTSIDE = 17
    PARALLEL = 18
    PROFILE = 19
    PLACE = 20
    WINDOW = 21
    ROOM = 22
    FORM = 23
    COUNT = 24
    SETTINGS = 25


WORDS: dict[int, str] = {
    Number.ANSWER: "answered",
    Number.SIZE: "the picture is empty, or wider or higher than 16384 pixels",
    Number.PHOTOGRAPH: "the stride is wrong, or the pixels are fewer than width and height ask for",
    Number.GRID: "the grid is not a square of 2 to 177 rows of 0 and 1",
    Number.SCALE: "a scale is not a number above 0",
    Number.CORNER: "a rough corner is not a number, or lies far outside of any picture",
    Number.LENS: "the camera has a value that is not a number, or a focal length not above 0",
    Number.SHEET: "the sheet or the copy is smaller than the picture",
    Number.QUAD: "the rough corners are not the corners of a quadrilateral",
    Number.THIN: "fewer than two edges of the label were found: the rough corners may be more than "
                 "a quarter of a module off or in another order, or dark and light exchanged",
    Number.LINE: "the points found on an edge all lie in one place",
    Number.OVERFLOW: "the arithmetic left the range of numbers",
    Number.CARD: "the job card is malformed, or there is no room for the result card",
    Number.POINTS: "a line needs two points",
    Number.PAIRING: "the points and their weights differ in number",
    Number.FINITE: "a point or a weight is not a number",
    Number.WEIGHT: "a weight is below 0, or all weights are 0",
    Number.OUTSIDE: "the place lies outside of the picture",
    Number.PARALLEL: "the two lines are parallel",
    Number.PROFILE: "there is no edge along this profile",
    Number.PLACE: "the place has no counterpart in the photograph",
    Number.WINDOW: "the window is not an odd number from 3 to 31",
    Number.ROOM: "the smoothed scan does not fit where it is to be written",
    Number.FORM: "the result card is malformed, or of the other form",
    Number.COUNT: "a count is above 255, and the older form has no room for it",
    Number.SETTINGS: "a setting is out of its range or not finite",
}


def word_of(number: int) -> str:
    """A number in words."""
    return WORDS.get(number, f"number {number}, which this version does not know")
