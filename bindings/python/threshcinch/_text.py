"""Run files, which the program `seedrun` reads, and what it prints: each as bytes. The library reads and writes them."""
from __future__ import annotations

import operator
from typing import NamedTuple, Optional, Union

import numpy as np
from scipy import sparse

from . import _library
from ._digest import seed_array
from ._graph import lists_of, natural, params_of, stored
from ._library import call, words_of
from ._refusal import Refusal, accept
from ._run import Counts, Graph

# The header's sizes, which a test holds them to: no run file and no answer is longer, so that what is written here never meets 18.
FILE_BYTES = 32_768
ANSWER_BYTES = 8_192

_LISTS = ("starts", "columns", "values")
# how many of each a run file has at most: the record of what was read has just the room for them
_MOST = [dict(_library.RunFile._fields_)[name]._length_ for name in _LISTS]


class RunFile(NamedTuple):
    """What a run file says, bit for bit, as `read_run` answers it.

        run = threshcinch.read_run(pathlib.Path("examples/ring.run").read_bytes())
        seed, counts = threshcinch.spectral_embedding(run.graph, run.dims, run.rounds, run.degree, run.seed_std)

    dims, rounds, degree, seed_std
              what spectral_embedding takes under these names
    starts    where the entries of each row begin, and last where all of them end: uint64
    columns   of the entries as they stand: uint32
    values    of the entries: float64
    graph     the three lists as a scipy.sparse.csr_matrix
    """

    dims: int
    rounds: int
    degree: int
    seed_std: float
    starts: np.ndarray
    columns: np.ndarray
    values: np.ndarray

    @property
    def graph(self) -> sparse.csr_matrix:
        """The graph, made anew each time, its entries as they stand. Raises Refusal (1 to 10) where the file is one that no run takes: reading
        looks at the text alone."""
        lists = lists_of(self.starts, self.columns, self.values)
        # The writer tests all of a file, in document 01's order; what it writes is not wanted.
        put_run(np.zeros(FILE_BYTES, np.uint8), lists, self.dims, params_of(self.rounds, self.degree, self.seed_std))
        starts, columns, values = lists
        rows = starts.size - 1
        return sparse.csr_matrix((values.copy(), columns.astype(np.int32), starts.astype(np.int32)), shape=(rows, rows))


def put_run(text: np.ndarray, graph_lists, dims: int, params) -> int:
    """Writes a run file into the text, and answers its length. Where that is refused, too little room (18) among it, the text stays."""
    written = call("threshcinch_write_run", natural(dims), params, *words_of([*graph_lists, text]))
    accept(written.verdict)
    return written.length


def write_run(graph: Graph, dims: int = 2, rounds: Optional[int] = None, degree: Optional[int] = None, seed_std: Optional[float] = None) -> bytes:
    """A run file: the seven lines from which `seedrun` makes the seed that spectral_embedding makes of the same words.

    graph, dims, rounds, degree, seed_std
              as spectral_embedding takes them, with the same defaults. A run file has at most 64 rows, 1,024 entries and 400 rounds.

    The entries are written as they stand, each value and seed_std as the 16 hex digits of its bits: `read_run` answers the same numbers bit for
    bit, and what it has read of an accepted file is written as that file's bytes. Raises Refusal: 17 where the rounds, the starts or the entries
    are more than a run file holds, at the line that would hold them (2, 5, 6, 7), before all others; then 1 to 10.
    """
    params = params_of(rounds, degree, seed_std)
    # Of lists that are too long no more is taken than shows it: they are refused before anything of their length is made.
    lists = lists_of(*(array[: most + 1] for array, most in zip(stored(graph), _MOST)))
    text = np.zeros(FILE_BYTES, np.uint8)
    return text[: put_run(text, lists, dims, params)].tobytes()


def read_run(data: bytes) -> RunFile:
    """What a run file says. Raises Refusal 17 where the bytes are none: at the first line that is wrong, missing, extra or has more than a run file
    holds, or at 0 for more than 32 KiB. What the numbers are is not tested; RunFile.graph does that."""
    text = np.frombuffer(data, np.uint8)
    file = call("threshcinch_read_run", *words_of([text]))
    accept(file.verdict)
    counts = (file.start_count, file.column_count, file.value_count)
    lists = [np.ctypeslib.as_array(getattr(file, name))[:count].copy() for name, count in zip(_LISTS, counts)]
    return RunFile(file.d, file.params.rounds, file.params.degree, file.params.seed_std, *lists)


def _word(number) -> int:
    """A whole number that is written as it is, and not tested: it must fit 64 bits."""
    number = operator.index(number)
    if not 0 <= number < 2**64:
        raise ValueError(f"a whole number of 0 to 2^64 - 1 can be written, and {number} is none")
    return number


def put_answer(text: np.ndarray, verdict: _library.Verdict, dims: int, rows: int, counts: _library.Counts, seed: np.ndarray) -> int:
    """Writes an answer into the text, and answers its length. Where that is refused, too little room (18) among it, the text stays."""
    written = call("threshcinch_write_answer", verdict, dims, rows, counts, *words_of([seed, text]))
    accept(written.verdict)
    return written.length


def _answer_words(answer) -> tuple:
    """Verdict, D, rows, counts and numbers, as the library takes them."""
    if isinstance(answer, Refusal):
        verdict = _library.Verdict(_word(answer.number), _word(answer.place))
        if not verdict.number:
            raise ValueError("0 is no refusal's number")
        return verdict, 0, 0, _library.Counts(), np.zeros(0)
    seed, counts = answer
    seed = seed_array(seed)
    rows, dims = seed.shape
    return _library.Verdict(), dims, rows, _library.Counts(*map(_word, Counts(*counts))), np.require(seed, np.float64, ["C", "A"])


def write_answer(answer: Union[tuple[np.ndarray, Counts], Refusal]) -> bytes:
    """What `seedrun` prints.

    answer    a seed (n x D, float64) and its Counts: an Embedding is such a pair; or a Refusal

    For a seed: `answer=0`, n, the four counts, and a line for each row with the bits of its D numbers in hex digits, every NaN as
    7ff8000000000000. For a refusal: its number and place. Raises Refusal where D is not 1 to 7 (1), n is 0 (2) or above 64 (17).
    """
    text = np.zeros(ANSWER_BYTES, np.uint8)
    return text[: put_answer(text, *_answer_words(answer))].tobytes()
