"""What the library refuses an input by, and what a saved run is refused by."""
from __future__ import annotations

# Refusals by number, in the words of include/threshcinch.h, which a test holds them to: an installed package has no header to read.
WORDS = {
    1: "dimensions are not 1 to 7",
    2: "fewer than two row starts",
    3: "more rows than 1,048,576 or more entries than 67,108,864",
    4: "columns and values differ in length",
    5: "the row starts do not begin at 0, fall, or do not end at the number of columns",
    6: "a column is not below the number of rows",
    7: "a value is NaN or infinite",
    8: "rounds are not 1 to 1,000",
    9: "degree is not 1 to 1,000",
    10: "seed_std is not positive and finite",
    11: "lent memory is too short",
    12: "there is no such chunk",
    13: "that chunk is already done in this stage",
    14: "a chunk of this stage is not done yet",
    15: "no run is open",
    16: "the state, or a list for it, is damaged",
    17: "the text is not a run file, or more than one holds",
    18: "the text has too little room",
    19: "the text is not a Matrix Market file of the kind coordinate pattern symmetric",
}

# The numbers that this package tells apart.
ROUNDS = 8
NO_CHUNK = 12
NO_RUN = 15
TEXT = 17
MATRIX_MARKET = 19


class Refusal(ValueError):
    """The library refused the input: `number` (document 01's), `place` (the row start's, entry's or chunk's index, the line of a run file or of a
    Matrix Market file from 1, else 0) and `words`."""

    def __init__(self, number: int, place: int) -> None:
        super().__init__(number, place)
        self.number = number
        self.place = place
        self.words = WORDS.get(number, "no refusal has this number")

    def __str__(self) -> str:
        return f"refusal {self.number} at {self.place}: {self.words}"


# Why a saved run is not loaded: the reason's name, and its words.
LOAD_WORDS = {
    "not a save": "the file is not a saved run",
    "version": "the saved run has a version that this package does not read",
    "no Ritz record": "the saved run is of threshcinch 0.1, which kept no Ritz record: go on with it there, or begin it anew",
    "length": "the saved run has fewer or more bytes than it says",
    "check sum": "the saved run's check sum is wrong: it was changed",
    "other graph": "the saved run is over another graph",
    "lists": "the saved run's lists have not the lengths that its state needs",
    "refused": "the saved run is not taken by the library",
}


class LoadError(ValueError):
    """A saved run does not fit. `reason` is one of 'not a save', 'version', 'no Ritz record', 'length', 'check sum', 'other graph', 'lists' and
    'refused'; with the last one `__cause__` is the library's Refusal."""

    def __init__(self, reason: str) -> None:
        super().__init__(reason)
        self.reason = reason

    def __str__(self) -> str:
        because = f": {self.__cause__}" if self.__cause__ else ""
        return LOAD_WORDS[self.reason] + because


def accept(verdict) -> None:
    """Raises the Refusal that a verdict of the library is."""
    if verdict.number:
        raise Refusal(verdict.number, verdict.place)
