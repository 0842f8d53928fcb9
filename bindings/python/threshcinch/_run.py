"""The runs: the one call, and the held run with threads."""
from __future__ import annotations

import operator
import os
from collections import deque
from concurrent.futures import Future, ThreadPoolExecutor, wait
from typing import Callable, NamedTuple, Optional, Union

import numpy as np
from scipy import sparse

from . import _save
from ._digest import lists_digest
from ._graph import natural, params_of, prepare
from ._library import MARKS, OUTPUT, RECORD, State, call, words_of
from ._refusal import NO_CHUNK, NO_RUN, LoadError, Refusal, accept

# what a caller hears of a run: calls accepted so far, and calls owed
OnProgress = Callable[[int, int], object]
Graph = Union["sparse.csr_matrix", "sparse.csr_array"]

# The stages, by the number that the state has; docs/STATE.md.
STAGES = (
    "no run,degrees,edges,v0,start block,filter pass,norm before,dots,subtract,dots again,subtract again,norm after,write,"
    "plain pass,products,rotate and unscale,sums,subtract the means,squares,scale,ended"
).split(",")
DEGREES = STAGES.index("degrees")
PRODUCTS = STAGES.index("products")
ENDED = len(STAGES) - 1


class Counts(NamedTuple):
    """What a run did.

    passes      operator passes closed, of the graph over the whole block: rounds x (degree + 1) when the run has ended
    refreshed   columns that collapsed when they were orthonormalized, to 2^-26 of their length or less, and were given fresh numbers; over
                all rounds. 0 is normal; in a graph of few rows, or of few distinct eigenvalues, it is not.
    zeroed      columns that collapsed once more after that, and were set to zero; over all rounds. 0 is normal. A zeroed column spans
                nothing: a block of k = dims + 8 columns found less than k directions.
    isolated    rows whose degree's root is not above 1e-12, or is NaN, so that they took the inverse weight 1e-12; rows with no entries are among
                them, and rows whose degree is below zero. 0 is normal. An open run has 0 until its degrees are closed.
    """

    passes: int
    refreshed: int
    zeroed: int
    isolated: int


class _Recorded:
    """What has a Ritz record, and its two parts."""

    @property
    def ritz_record(self) -> np.ndarray:
        raise NotImplementedError

    @property
    def filter_bounds(self) -> np.ndarray:
        """The bound that each round's filter used: the first column of `ritz_record`, as a view."""
        return self.ritz_record[:, 0]

    @property
    def ritz_values(self) -> np.ndarray:
        """Each round's dims + 8 Ritz values, falling, NaN last: the other columns of `ritz_record`, as a view."""
        return self.ritz_record[:, 1:]


class Embedding(_Recorded, tuple[np.ndarray, Counts]):
    """What `spectral_embedding` answers: the pair of seed and Counts, with the Ritz record beside it.

        seed, counts = spectral_embedding(graph)           # it is a tuple of two
        answer = spectral_embedding(graph)
        answer.ritz_values[-1] - answer.ritz_values[-2]    # how far each Ritz value moved in the last round

    seed            n x dims, float64
    counts          Counts
    ritz_record     rounds x (dims + 9), float64: how the spectrum settled. A row for each round: the bound that the round's filter used,
                    then all dims + 8 Ritz values of the round, falling, NaN last. The first dims of them are those of the seed's columns.
    filter_bounds   the first column of it, as a view: 0.75, and then the Ritz value at place dims + 1 (from 0) of the round before, raised
                    to 0.1 and lowered to 0.9995; NaN becomes 0.1
    ritz_values     the other columns, as a view
    """

    _record: np.ndarray

    def __new__(cls, seed: np.ndarray, counts: Counts, ritz_record: np.ndarray) -> Embedding:
        pair = tuple.__new__(cls, (seed, counts))
        pair._record = ritz_record
        return pair

    def __getnewargs__(self) -> tuple[np.ndarray, Counts, np.ndarray]:
        """So that copies and pickles have the record."""
        return self.seed, self.counts, self.ritz_record

    @property
    def seed(self) -> np.ndarray:
        return self[0]

    @property
    def counts(self) -> Counts:
        return self[1]

    @property
    def ritz_record(self) -> np.ndarray:
        return self._record


class Progress(NamedTuple):
    """Where a run is.

    stage       the name of the stage that it stands in
    accepted    calls (chunks and closings) that the library has accepted since the opening
    owed        calls that it still owes if no further column is refreshed; a refreshed one adds to them
    """

    stage: str
    accepted: int
    owed: int


class Run(_Recorded):
    """A held run: the same work, seed, counts and Ritz record as the one call, chunk by chunk, stopped and gone on with anywhere.

        run = threshcinch.Run.open(graph, dims=2)
        while run.is_open:
            for number in run.chunks_left():      # in any order
                run.chunk(number)
            run.close()
        seed, counts, record = run.seed, run.counts, run.ritz_record

    `drive` does that loop, with several threads if asked. `chunk` may be called from several threads at once with different numbers;
    nothing else of a run may be called beside a chunk, except `stop`. The graph must not be changed as long as the run is used.
    """

    def __init__(self, graph_lists, memory, state: State) -> None:
        """Not for callers: `open` and `load` make runs."""
        self._graph: list[np.ndarray] = graph_lists
        self._stop = False
        self._stand(state, memory)

    def _stand(self, state: State, memory) -> None:
        """Where the run stands, replaced at one blow: whatever interrupts a closing leaves the run before it or after it."""
        self._at = (state, memory, words_of(self._graph + memory))

    @classmethod
    def open(cls, graph: Graph, dims: int = 2, rounds: Optional[int] = None, degree: Optional[int] = None, seed_std: Optional[float] = None) -> Run:
        """Opens a run; spectral_embedding says what the words mean. Raises Refusal where the library refuses the input (1 to 10)."""
        params = params_of(rounds, degree, seed_std)
        graph_lists, memory = prepare(graph, natural(dims), params.rounds)
        answer = call("threshcinch_open", natural(dims), params, *words_of(graph_lists + memory))
        accept(answer.verdict)
        return cls(graph_lists, memory, answer.state)

    def chunk(self, number: int) -> None:
        """Does one chunk of the stage. Refusals 12 (no such chunk), 13 (already done), 15 (the run has ended) and 16."""
        state, _, words = self._at
        accept(call("threshcinch_chunk", state, natural(number), *words).verdict)

    def close(self) -> None:
        """Closes the stage. Refusals 14 (a chunk is not done), 15 (the run has ended) and 16."""
        state, memory, _ = self._at
        # Closing writes the marks and, after the products, the Ritz record. It gets copies of what it writes, so that the run stands where it
        # stood until it has answered.
        written = (MARKS, RECORD) if state.progress.stage == PRODUCTS else (MARKS,)
        after = [array.copy() if number in written else array for number, array in enumerate(memory)]
        answer = call("threshcinch_close", state, *words_of(self._graph + after))
        accept(answer.verdict)
        self._stand(answer.state, after)

    def chunks_left(self) -> list[int]:
        """The chunks of the stage that are not done yet, upward; none when the run has ended."""
        return np.flatnonzero(self._at[1][MARKS] != 1).tolist() if self.is_open else []

    @property
    def chunk_count(self) -> int:
        """How many chunks each stage has: one per 4,096 rows."""
        return self._at[1][MARKS].size

    @property
    def is_open(self) -> bool:
        """The run stands before or in one of its stages."""
        return 1 <= self._at[0].progress.stage < ENDED

    @property
    def counts(self) -> Counts:
        """What the run has done so far."""
        return Counts(*(getattr(self._at[0].counts, name) for name in Counts._fields))

    @property
    def seed(self) -> np.ndarray:
        """The seed of a run that has ended, n x dims. RuntimeError for one that is still open."""
        state, memory, _ = self._at
        if self.is_open:
            raise RuntimeError("the run has not ended, so there is no seed yet")
        return memory[OUTPUT].reshape(state.asked.rows, state.asked.dims)

    @property
    def rounds_closed(self) -> int:
        """How many rounds have their Ritz values: all of them when the run has ended."""
        state = self._at[0]
        return state.asked.rounds if state.progress.stage > PRODUCTS else state.progress.round

    @property
    def ritz_record(self) -> np.ndarray:
        """Bound and Ritz values as Embedding has them, a row for each of the rounds that have closed so far. A copy: it stays as it is when
        the run goes on."""
        state, memory, _ = self._at
        return memory[RECORD].reshape(state.asked.rounds, -1)[: self.rounds_closed].copy()

    @property
    def asked(self) -> dict[str, Union[int, float]]:
        """What was asked at the opening: dims, rows, entries, rounds, degree, seed_std."""
        asked = self._at[0].asked
        return {name: getattr(asked, name) for name, _ in asked._fields_}

    @property
    def graph_digest(self) -> str:
        """What graph_digest answers for the run's graph."""
        return lists_digest(self._graph)

    def progress(self) -> Progress:
        """Where the run is, with the chunks of this stage that are done."""
        closed, owed = self._calls()
        done = self._done()
        return Progress(STAGES[self._at[0].progress.stage], closed + done, owed - done)

    def _calls(self) -> tuple[int, int]:
        """Calls accepted in the stages that are closed, and calls owed from this stage on."""
        state = self._at[0]
        return call("threshcinch_calls_accepted", state), call("threshcinch_calls_owed", state)

    def _done(self) -> int:
        return int(np.count_nonzero(self._at[1][MARKS] == 1)) if self.is_open else 0

    # ---- several threads

    def stop(self) -> None:
        """Asks the drive at hand, or else the next one, to come back once the chunks that are being done are done. From any thread, from
        `progress`, or from a signal's handler."""
        self._stop = True

    def drive(self, threads: int = 1, progress: Optional[OnProgress] = None) -> bool:
        """Does the rest of the run with so many threads, this one among them: the same bits with any number. There are never more threads
        than chunks. Answers True if the run has ended, False if it was stopped; it may then be saved, or driven on.

        progress    called as progress(accepted, owed) from this thread: before each call that this thread makes, and at the end. What it
                    raises comes out of here, and leaves the run as a stop does.
        """
        threads = operator.index(threads)
        if threads < 1:
            raise ValueError(f"threads must be 1 or more, not {threads}")
        helpers = min(threads, self.chunk_count) - 1
        try:
            with ThreadPoolExecutor(max(helpers, 1), "threshcinch") as pool:  # starts a thread only for work that it gets
                while self.is_open and not self._stop:
                    self._stage(pool, helpers, progress)
            if progress is not None and not self.is_open:
                progress(*self._calls())
        finally:
            self._stop = False
        return not self.is_open

    def _stage(self, pool: ThreadPoolExecutor, helpers: int, progress: Optional[OnProgress]) -> None:
        """The rest of a stage: its chunks, then closing, unless it is stopped before."""
        tell = self._teller(progress)
        left = deque(self.chunks_left())
        others: list[Future] = []
        try:
            others = [pool.submit(self._take_chunks, left) for _ in range(min(helpers, len(left) - 1))]
            self._take_chunks(left, tell)
        finally:
            # No more chunks are handed out, and nobody holds one when this comes back: then the run is this thread's alone again.
            left.clear()
            wait(others)
        for other in others:
            other.result()  # raises what was raised there
        if not self._stop:
            tell()
            self.close()

    def _teller(self, progress: Optional[OnProgress]) -> Callable[[], object]:
        """Tells `progress` how far the run is; the library is asked once a stage."""
        if progress is None:
            return lambda: None
        heard = progress
        closed, owed = self._calls()

        def tell() -> None:
            done = self._done()
            heard(closed + done, owed - done)

        return tell

    def _take_chunks(self, left: deque[int], tell: Callable[[], object] = lambda: None) -> None:
        """Does chunks until none is left. A deque hands out each number once, whoever asks."""
        try:
            while left and not self._stop:
                tell()
                try:
                    number = left.popleft()
                except IndexError:  # another thread was faster
                    return
                self.chunk(number)
        except BaseException:
            left.clear()
            raise

    # ---- a run in a file

    def save(self, path: Union[str, os.PathLike]) -> None:
        """Writes the run to one file, wherever it stands, within a stage too: in the form that the Rust binding's Run::save has, so that
        either reads the other's. The graph is not in it, only its check sum. What stood in the file before stays until all is written."""
        state, memory, _ = self._at
        _save.write(path, self._graph, state, memory)

    @classmethod
    def load(cls, graph: Graph, path: Union[str, os.PathLike]) -> Run:
        """The run that `save` wrote, over the same graph. Raises LoadError where the file does not fit.

        A file of threshcinch 0.2 is taken too. Where that run's degrees are closed, its isolated rows are counted anew, which takes the memory of
        a second run of one dimension and one round as long as this call lasts."""
        graph_lists, state, memory, version = _save.read(path, graph)
        run = cls(graph_lists, memory, state)
        run._check()
        if version == _save.COUNTED_BY_ENTRIES:
            state.counts.isolated = 0 if state.progress.stage == DEGREES else _isolated_by_roots(graph)
        return run

    def _check(self) -> None:
        """Offers the library a chunk that no run has. It tests the state and the lists' lengths first, so that 12 says that they are sound,
        and touches nothing. A chunk's own mark and columns it tests when that chunk is called."""
        try:
            self.chunk(2**64 - 1)
        except Refusal as refusal:
            if refusal.number == NO_CHUNK or (refusal.number == NO_RUN and self._at[0].progress.stage == ENDED):
                return
            raise LoadError("refused") from refusal


def _isolated_by_roots(graph: Graph) -> int:
    """How many rows of it are isolated: what a run of the least memory counts as it closes its degrees, so that the library decides. Such a run
    opens over every graph that a run was ever opened over; a forged file may be over another."""
    try:
        run = Run.open(graph, dims=1, rounds=1, degree=1)
        for number in run.chunks_left():
            run.chunk(number)
        run.close()
    except Refusal as refusal:
        raise LoadError("refused") from refusal
    return run.counts.isolated


def _one_call(graph: Graph, dims: int, params) -> Embedding:
    graph_lists, memory = prepare(graph, natural(dims), params.rounds)
    embedded = call("threshcinch_spectral_embedding", natural(dims), params, *words_of(graph_lists + memory))
    accept(embedded.verdict)
    counts = Counts(*(getattr(embedded.counts, name) for name in Counts._fields))
    return Embedding(memory[OUTPUT].reshape(-1, operator.index(dims)), counts, memory[RECORD].reshape(params.rounds, -1))


def spectral_embedding(
    graph: Graph,
    dims: int = 2,
    rounds: Optional[int] = None,
    degree: Optional[int] = None,
    seed_std: Optional[float] = None,
    progress: Optional[OnProgress] = None,
    threads: int = 1,
) -> Embedding:
    """The spectral seed of a neighbour graph: start positions for an embedding of its rows.

    graph     scipy.sparse csr_matrix or csr_array, square: row i holds the weights of i's neighbours. It should be symmetric; that is not
              tested. It is only read, and must not be changed while the call runs. Index arrays of 32 or 64 bits are taken; values of
              another kind than float64 are converted to it. Another class is a TypeError, another shape a ValueError.
    dims      numbers a row of the seed has, 1 to 7
    rounds, degree, seed_std
              rounds of refinement and the filter's degree (1 to 1,000 each), and the standard deviation of each of the seed's columns;
              None is the library's default: 5, 20, 1e-4
    progress  called as progress(accepted, owed) from the calling thread, before each call that it makes on a held run and once at the
              end: how many calls the library has accepted since the opening, and how many it still owes if no further column is
              refreshed. What it raises ends the run and comes out of here.
    threads   so many threads, the calling one among them, do the chunks of 4,096 rows: a graph of fewer rows has one chunk, and gains
              nothing. Without progress and with one thread the work is one call, which Python cannot interrupt.

    Answers an Embedding: the pair of the seed, an ndarray of n x dims float64, and Counts, as in `seed, counts = ...`. Its `ritz_record`
    has each round's bound and Ritz values, which show how the spectrum settled. All are the same with and without `progress` and for any
    number of threads, bit for bit. Raises Refusal where the library refuses the input.

    The order of entries matters to the last bits: a row's degree is summed in the order in which its entries stand, and a column that
    stands twice in a row counts as two entries. The entries are taken as they stand, neither sorted nor summed. Some of SciPy's own
    operations do either in place (sort_indices, sum_duplicates, and others that call them), or answer a matrix in another order
    (conversions, sums, transposes): the same graph made another way may give another last bit.
    """
    if progress is None and operator.index(threads) == 1:
        return _one_call(graph, dims, params_of(rounds, degree, seed_std))
    run = Run.open(graph, dims, rounds, degree, seed_std)
    run.drive(threads, progress)
    return Embedding(run.seed, run.counts, run.ritz_record)
