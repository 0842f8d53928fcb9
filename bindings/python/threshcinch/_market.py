"""Matrix Market files, which the library reads as graphs."""
from __future__ import annotations

import os
from typing import Union

import numpy as np
from scipy import sparse

from ._library import call, words_of
from ._refusal import accept

# a file's name, or its bytes in whatever lends them: bytes, bytearray, memoryview, mmap, an array of uint8
PathOrBytes = Union[str, "os.PathLike[str]", bytes, bytearray, memoryview]


def _text_of(path_or_bytes: PathOrBytes) -> np.ndarray:
    if isinstance(path_or_bytes, (str, os.PathLike)):
        with open(path_or_bytes, "rb") as file:
            path_or_bytes = file.read()
    return np.frombuffer(path_or_bytes, np.uint8)


def _lists_for(text: np.ndarray) -> list[np.ndarray]:
    """Starts, columns and values with room that suffices; only what is written of them takes memory. Where the lines up to the size line are
    refused they are empty, and reading says why: a later line may be at fault, and 19 comes first."""
    room = call("threshcinch_matrix_market_sizes", *words_of([text]))
    return [np.empty(room.starts, np.uint64), np.empty(room.entries, np.uint32), np.empty(room.entries, np.float64)]


def read_matrix_market(path_or_bytes: PathOrBytes) -> sparse.csr_matrix:
    """The graph of a Matrix Market file of the kind coordinate pattern symmetric, as scipy.io.mmwrite(path, graph, field="pattern",
    symmetry="symmetric") writes it.

    path_or_bytes
              the file's name (str or os.PathLike), or its bytes

    Each entry becomes 1.0, off the diagonal it is placed in both rows, and a row's entries rise by column: float64, with indices of int32. It is the
    library that reads, and every text is either such a graph or refused. Raises Refusal, in this order: 19 where the text is no such file, at
    the first line at fault, from 1; 2 for no rows; 3 for more than 1,048,576 rows, or more than 67,108,864 entries as placed.

    Entries in strictly rising order, by column and row or by row and column, as every tool writes them, are tested in one pass over the text. In any
    other order repeats are looked for in one more pass for each 32,767 entries. A call takes about 394,000 bytes of its
    thread's stack: see threading.stack_size where threads have small ones.
    """
    text = _text_of(path_or_bytes)
    lists = _lists_for(text)
    market = call("threshcinch_read_matrix_market", *words_of([text, *lists]))
    accept(market.verdict)
    starts, columns, values = lists
    for array in (columns, values):
        array.resize(market.entries, refcheck=False)  # gives back what was too much; nobody else has it
    return sparse.csr_matrix((values, columns.view(np.int32), starts.astype(np.int32)), shape=(market.rows, market.rows))
