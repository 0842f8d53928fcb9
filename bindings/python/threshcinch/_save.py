"""A run as a file, and back: the bytes of bindings/rust/src/save.rs, so that a run saved by either binding goes on in the other.

All numbers are little-endian, whole ones of 8 bytes, floats as their bits:

    8         the letters TCINCHRN
    8         version, 3
    3 x 8     lengths of the graph's starts, columns and values
    8         check sum of the graph's lists
    11 x 8    lengths of the lent lists 0 to 10
    5,688     the state, field after field
              the lent lists 0 to 10: 8 bytes an element, but 4 for the edge columns and 1 for the marks
    8         check sum of all bytes before it

Version 2, of threshcinch 0.2, counted the rows with no entries as isolated, from the opening on, and has else the same bytes. It is read, and
nothing is lost: the graph says how many rows are isolated, and Run.load has the library count them (none where the degrees are not closed).

Version 1, of threshcinch 0.1, had no list 10, the Ritz record. It is not read, as the rounds that it has closed are not to be had from it.

A check sum is FNV-1a of 64 bits. It keeps out accidents, not forgers: what a forger can reach is a run that meets refusal 16 or has another
seed, since the library asks for nothing first.
"""
from __future__ import annotations

import contextlib
import ctypes
import os
import tempfile

import numpy as np

from ._graph import lengths_of, lists_of, stored
from ._library import MEMORY_KINDS, State
from ._refusal import LoadError, Refusal

LETTERS = b"TCINCHRN"
VERSION = 3
COUNTED_BY_ENTRIES = 2
WITHOUT_RECORD = 1
WORD = np.dtype("<u8")
LENGTHS_BYTES = 8 * len(MEMORY_KINDS)
HEAD_BYTES = 8 * (1 + 1 + 3 + 1) + LENGTHS_BYTES
STATE_BYTES = ctypes.sizeof(State)

# ---- the check sum

_PRIME = 0x100000001B3
_BASIS = 0xCBF29CE484222325
_LOW = 2**64 - 1
_BLOCK = 2**16
# the prime's powers, falling to the first: what each byte of a block is multiplied by until the block's end
_POWERS = np.multiply.accumulate(np.full(_BLOCK, _PRIME, np.uint64))[::-1].copy()


def _low_bytes(low: int, data: np.ndarray) -> np.ndarray:
    """The sum's lowest byte before each byte of the data, where it is `low` before the first.

    It goes its own way, x -> (x xor byte) * 0xB3, and bit by bit: a bit of the product is that bit of the factor, turned by lower bits
    alone. So each bit, once those below it are known for all bytes, is a running xor.
    """
    before = np.zeros(data.size, np.uint8)
    for bit in (1 << place for place in range(8)):
        below = (before ^ data) & np.uint8(bit - 1)
        turns = np.bitwise_xor.accumulate((data ^ below * np.uint8(_PRIME & 0xFF)) & np.uint8(bit))
        before[0] |= low & bit
        before[1:] |= turns[:-1] ^ np.uint8(low & bit)
    return before


def check_sum(data: np.ndarray, found: int = _BASIS) -> int:
    """FNV-1a of the bytes, from `found` on: found = (found xor byte) * prime for each, modulo 2^64.

    A byte's xor adds a small number that the lowest byte of the sum decides. With these known the rest is a polynomial in the prime, which
    NumPy sums up; a loop over the bytes would take four times as long.
    """
    for start in range(0, data.size, _BLOCK):
        block = data[start : start + _BLOCK]
        before = _low_bytes(found & 0xFF, block)
        added = ((before ^ block).astype(np.int64) - before).view(np.uint64)
        total = int(np.dot(added, _POWERS[_BLOCK - block.size :]))
        found = (found * int(_POWERS[_BLOCK - block.size]) + total) & _LOW
    return found


def _sum_of(pieces) -> int:
    found = _BASIS
    for piece in pieces:
        found = check_sum(_bytes(piece), found)
    return found


def _bytes(array: np.ndarray) -> np.ndarray:
    return array.view(np.uint8)


def _words(*numbers: int) -> np.ndarray:
    return np.array(numbers, WORD)


# ---- writing


@contextlib.contextmanager
def written_whole(path):
    """A file to be written that takes its place only when all is written, so that a failure leaves what was there."""
    path = os.path.abspath(path)
    number, beside = tempfile.mkstemp(prefix=os.path.basename(path) + ".", dir=os.path.dirname(path))
    try:
        with open(number, "wb") as file:
            yield file
        os.chmod(beside, 0o666 & ~_mask())
        os.replace(beside, path)
    except BaseException:
        os.unlink(beside)
        raise


def _mask() -> int:
    """The process's file mode mask, which can only be read by setting it."""
    mask = os.umask(0o077)
    os.umask(mask)
    return mask


def write(path, graph_lists, state: State, memory) -> None:
    graph_head = _words(*(array.size for array in graph_lists), _sum_of(graph_lists))
    lengths = _words(*(array.size for array in memory))
    head = [np.frombuffer(LETTERS, np.uint8), _words(VERSION), graph_head, lengths, np.frombuffer(bytes(state), np.uint8)]
    pieces = head + memory
    with written_whole(path) as file:
        for piece in pieces + [_words(_sum_of(pieces))]:
            file.write(_bytes(piece))


# ---- reading


def read(path, graph) -> tuple[list[np.ndarray], State, list[np.ndarray], int]:
    """The graph's lists, the state, the lent lists and the version, or LoadError. The tests have the order of the Rust binding's."""
    data = np.fromfile(path, np.uint8)
    version, lengths = _check_bytes(data)
    graph_lists = lists_of(*stored(graph))
    _check_graph(data, graph_lists)
    state = State.from_buffer_copy(data[HEAD_BYTES : HEAD_BYTES + STATE_BYTES].tobytes())
    _check_lengths(state, graph_lists, lengths)
    return graph_lists, state, _lists(data, lengths), version


def _check_bytes(data: np.ndarray) -> tuple[int, list[int]]:
    """The file begins as it should, is as long as it says, and has the right check sum: answers its version and the lent lists' lengths."""
    if data.size < 16 and data[:8].tobytes() == LETTERS[: data.size]:
        raise LoadError("length")
    if data[:8].tobytes() != LETTERS:
        raise LoadError("not a save")
    version = _check_version(int(data[8:16].view(WORD)[0]))
    if data.size < HEAD_BYTES:
        raise LoadError("length")
    lengths = data[HEAD_BYTES - LENGTHS_BYTES : HEAD_BYTES].view(WORD).tolist()
    lists = sum(length * np.dtype(kind).itemsize for length, kind in zip(lengths, MEMORY_KINDS))
    if data.size != HEAD_BYTES + STATE_BYTES + lists + 8:
        raise LoadError("length")
    if int(data[-8:].view(WORD)[0]) != check_sum(data[:-8]):
        raise LoadError("check sum")
    return version, lengths


def _check_version(version: int) -> int:
    if version == WITHOUT_RECORD:
        raise LoadError("no Ritz record")
    if version not in (VERSION, COUNTED_BY_ENTRIES):
        raise LoadError("version")
    return version


def _check_graph(data: np.ndarray, graph_lists) -> None:
    """The graph is the one that was opened. That its starts never fall is tested on its own: threads rest on it, and must not rest on a
    check sum, which can be forged."""
    expected = _words(*(array.size for array in graph_lists), _sum_of(graph_lists))
    starts = graph_lists[0]
    if not np.array_equal(data[16:48].view(WORD), expected) or (starts[1:] < starts[:-1]).any():
        raise LoadError("other graph")


def _check_lengths(state: State, graph_lists, lengths) -> None:
    """The state's sizes are the graph's, and the lists have the lengths that the library names for them."""
    asked = state.asked
    try:
        needed = lengths_of(asked.dims, asked.rounds, asked.rows, asked.entries)
    except Refusal as refusal:
        raise LoadError("refused") from refusal
    sizes = [asked.rows + 1, asked.entries, asked.entries]
    if sizes != [array.size for array in graph_lists] or needed != lengths:
        raise LoadError("lists")


def _lists(data: np.ndarray, lengths) -> list[np.ndarray]:
    memory, start = [], HEAD_BYTES + STATE_BYTES
    for length, kind in zip(lengths, MEMORY_KINDS):
        end = start + length * np.dtype(kind).itemsize
        memory.append(data[start:end].copy().view(kind))
        start = end
    return memory
