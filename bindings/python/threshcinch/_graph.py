"""From SciPy's matrices and Python's numbers to what the library takes."""
from __future__ import annotations

import operator

import numpy as np
from scipy import sparse

from ._library import MEMORY_KINDS, Params, call, default_arithmetic
from ._refusal import ROUNDS, Refusal, accept


def natural(number) -> int:
    """A whole number as 64 bits. One that does not fit becomes the largest, which is out of every range, so that the library refuses it."""
    number = operator.index(number)
    return number if 0 <= number < 2**64 else 2**64 - 1


def params_of(rounds, degree, seed_std) -> Params:
    """The library's defaults, with what was given in their place. The call itself tests them, in document 01's order."""
    params = call("threshcinch_params_new")
    if rounds is not None:
        params.rounds = natural(max(operator.index(rounds), 0))  # as too few: too many are refused by another number where a run file is written
    if degree is not None:
        params.degree = natural(degree)
    if seed_std is not None:
        with default_arithmetic():  # a number of another kind becomes float64 here
            params.seed_std = float(seed_std)
    return params


def _check_kind(graph) -> None:
    """It is a SciPy matrix of the right format and shape."""
    if not sparse.issparse(graph) or graph.format != "csr":
        hint = ": graph.tocsr() makes one" if sparse.issparse(graph) else ""
        raise TypeError(f"the graph must be a scipy.sparse csr_matrix or csr_array, not {type(graph).__name__}{hint}")
    if len(graph.shape) != 2 or graph.shape[0] != graph.shape[1]:
        raise ValueError(f"the graph must be square, and its shape is {graph.shape}")


def stored(graph) -> tuple[np.ndarray, np.ndarray, np.ndarray]:
    """SciPy's three arrays as they are: row starts, columns, values. What lies behind the last start is no part of a SciPy matrix."""
    _check_kind(graph)
    starts, columns, values = (np.asarray(array) for array in (graph.indptr, graph.indices, graph.data))
    if starts.shape != (graph.shape[0] + 1,) or columns.ndim != 1 or values.ndim != 1:
        raise ValueError("the graph's arrays do not fit its shape")
    if starts.dtype.kind not in "iu" or columns.dtype.kind not in "iu":
        raise TypeError("the graph's row starts and columns must be whole numbers")
    if not np.can_cast(values.dtype, np.float64, "safe"):
        raise TypeError(f"the graph's values must be real numbers that float64 takes, not {values.dtype}")
    last = int(starts[-1])
    if 0 <= last <= min(columns.size, values.size):
        columns, values = columns[:last], values[:last]
    return starts, columns, values


def lists_of(starts, columns, values) -> list[np.ndarray]:
    """The library's three graph lists. Only what is of another kind, or not in one aligned piece, is copied.

    A negative number reads as a far too large one, and a column above 32 bits becomes the largest column; the library refuses both.
    """
    starts = np.require(starts, np.int64, ["C", "A"]).view(np.uint64)
    if columns.dtype.itemsize == 4:
        columns = np.require(columns, columns.dtype.newbyteorder("="), ["C", "A"]).view(np.uint32)
    else:
        columns = np.minimum(columns.astype(np.int64).view(np.uint64), 2**32 - 1).astype(np.uint32)
    with default_arithmetic():  # values of other kinds become float64 here
        return [starts, columns, np.require(values, np.float64, ["C", "A"])]


def lengths_of(dims: int, rounds: int, rows: int, entries: int) -> list[int]:
    """How long each lent list must be, or a Refusal (1, 2, 3, 8)."""
    sizes = call("threshcinch_lent_sizes", dims, rounds, rows, entries)
    accept(sizes.verdict)
    return list(sizes.lengths)


def prepare(graph, dims: int, rounds: int) -> tuple[list[np.ndarray], list[np.ndarray]]:
    """The graph's lists, and memory for a run over it. The sizes are tested before anything of the graph's length is made."""
    starts, columns, values = stored(graph)
    try:
        lengths = lengths_of(dims, rounds, starts.size - 1, columns.size)
    except Refusal as refusal:
        if refusal.number != ROUNDS:
            raise
        # The call refuses these rounds, but only after it has tested the graph: until then it gets the memory of one round.
        lengths = lengths_of(dims, 1, starts.size - 1, columns.size)
    return lists_of(starts, columns, values), memory_of(lengths)


def memory_of(lengths) -> list[np.ndarray]:
    """Zeros, so that a save of a run that has just begun holds nothing that this process had in its memory before."""
    return [np.zeros(length, kind) for length, kind in zip(lengths, MEMORY_KINDS)]
