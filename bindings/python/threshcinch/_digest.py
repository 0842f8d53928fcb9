"""Digests, by which two people see that they have the same graph and the same seed.

Both are SHA-256, of these bytes; whole numbers and floats' bits are little-endian.

    graph   the 20 bytes 'threshcinch graph 1' and a line feed; n and the number of entries, 8 bytes each; the n + 1 row starts, 8 bytes
            each; the columns, 4 bytes each; the values, 8 bytes each, the bits of float64 as they are: minus zero is not zero. All as the
            library takes them: in the order in which they stand, neither sorted nor summed. A graph that the library refuses has none.
    seed    the 19 bytes 'threshcinch seed 1' and a line feed; D and n, 8 bytes each; the n x D numbers row by row, 8 bytes each, the bits
            of float64, every NaN as 7ff8000000000000; minus zero is not zero
"""
from __future__ import annotations

import hashlib

import numpy as np

from ._graph import params_of, prepare
from ._library import call, words_of
from ._refusal import accept

GRAPH_TAG = b"threshcinch graph 1\n"
SEED_TAG = b"threshcinch seed 1\n"
NAN = 0x7FF8000000000000


def _whole(*numbers: int) -> bytes:
    return np.array(numbers, "<u8").tobytes()


def _sha256(*pieces) -> str:
    found = hashlib.sha256()
    for piece in pieces:
        found.update(piece)
    return found.hexdigest()


def lists_digest(graph_lists) -> str:
    """The digest of a graph's lists, which the library has taken."""
    starts, columns, values = graph_lists
    return _sha256(GRAPH_TAG, _whole(starts.size - 1, columns.size), starts, columns, values)


def graph_digest(graph) -> str:
    """The SHA-256 of a graph (scipy.sparse csr_matrix or csr_array) as the library takes it, in hexadecimal digits.

    Of: 'threshcinch graph 1' and a line feed; n and the number of entries, 8 bytes each; the n + 1 row starts, 8 bytes each; the columns,
    4 bytes each; the values' bits, 8 bytes each, minus zero kept. Little-endian, in the order in which the entries stand.
    Raises Refusal for a graph that the library refuses.
    """
    dims, params = 1, params_of(None, None, None)
    graph_lists, memory = prepare(graph, dims, params.rounds)
    # Opening tests the graph and touches no lent list but the marks.
    accept(call("threshcinch_open", dims, params, *words_of(graph_lists + memory)).verdict)
    return lists_digest(graph_lists)


def seed_array(seed) -> np.ndarray:
    """The array that a seed is, or a TypeError."""
    seed = np.asarray(seed)
    if seed.ndim != 2 or seed.dtype.newbyteorder("=") != np.float64:
        raise TypeError(f"a seed is an n x D array of float64, not {seed.dtype} of shape {seed.shape}")
    return seed


def seed_digest(seed: np.ndarray) -> str:
    """The SHA-256 of a seed (n x D, float64), in hexadecimal digits.

    Of: 'threshcinch seed 1' and a line feed; D and n, 8 bytes each; the numbers' bits row by row, 8 bytes each, every NaN as
    7ff8000000000000, minus zero kept. Little-endian.
    """
    seed = seed_array(seed)
    bits = np.array(seed, "<f8", order="C").view("<u8")
    bits[np.isnan(seed)] = NAN
    return _sha256(SEED_TAG, _whole(seed.shape[1], seed.shape[0]), bits.ravel())
