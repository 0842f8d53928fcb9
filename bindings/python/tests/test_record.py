"""The Ritz record: what it holds, who writes it when, and what is refused of it."""
import copy
import pathlib
import pickle
import tempfile

import numpy as np

from threshcinch import Embedding, Refusal, Run, _graph, _library, spectral_embedding
from threshcinch._library import MARKS, OUTPUT, RECORD

from .common import Case, bits, csr, ended, oracle_runs, random_graph


def chain(rows):
    """Each row with the next one: the longer, the closer to 1 its eigenvalues lie."""
    columns = [[row - 1, row + 1] for row in range(rows)]
    columns[0], columns[-1] = [1], [rows - 2]
    starts = np.cumsum([0] + [len(row) for row in columns])
    return csr(starts, sum(columns, []), np.ones(starts[-1]))


def operator_values(graph):
    """All eigenvalues of the operator that a run works on, falling: a dense solver is an independent judge."""
    dense = graph.toarray()
    inverse = 1 / np.sqrt(dense.sum(axis=1))
    return np.linalg.eigvalsh(0.5 * (np.eye(len(dense)) + inverse[:, None] * dense * inverse))[::-1]


def next_bound(value):
    """Raised to 0.1 and lowered to 0.9995; NaN becomes 0.1."""
    return min(value, 0.9995) if value > 0.1 else 0.1


class Answers(Case):
    """How a caller gets at it."""

    def test_the_pair(self):
        """seed, counts = ... is as it was."""
        answer = spectral_embedding(random_graph(60, 4, 1), dims=3, rounds=4)
        seed, counts = answer
        self.assertIsInstance(answer, tuple)
        self.assertEqual((len(answer), answer[1], seed.shape), (2, counts, (60, 3)))
        self.assertIs(answer.seed, seed)
        self.assertIs(answer.counts, counts)

    def test_the_array_and_its_parts(self):
        answer = spectral_embedding(random_graph(60, 4, 1), dims=3, rounds=4)
        record = answer.ritz_record
        self.assertEqual((record.shape, record.dtype), ((4, 12), np.float64))
        self.assertEqual((answer.filter_bounds.shape, answer.ritz_values.shape), ((4,), (4, 11)))
        np.testing.assert_array_equal(np.column_stack([answer.filter_bounds, answer.ritz_values]), record)
        for part in (answer.filter_bounds, answer.ritz_values):
            self.assertTrue(np.shares_memory(part, record))

    def test_copies_have_it(self):
        answer = spectral_embedding(random_graph(30, 3, 1), rounds=2)
        for other in (copy.copy(answer), copy.deepcopy(answer), pickle.loads(pickle.dumps(answer))):
            self.assertIs(type(other), Embedding)
            self.same(other, answer)

    def test_both_ways(self):
        """With progress the work is a held run."""
        for rounds in (1, 2, 7):
            graph = random_graph(50, 3, rounds)
            self.same(spectral_embedding(graph, rounds=rounds, progress=lambda accepted, owed: None), spectral_embedding(graph, rounds=rounds))

    def test_threads(self):
        """5 chunks, with fewer threads than that, and more."""
        graph = random_graph(16385, 2, 3)
        words = {"dims": 1, "rounds": 3, "degree": 1}
        expected = spectral_embedding(graph, **words)
        self.assertEqual(len(np.unique(expected.ritz_record, axis=0)), 3)
        for threads in (1, 2, 3, 8):
            run = Run.open(graph, **words)
            self.assertTrue(run.drive(threads))
            self.same(ended(run), expected)


class Numbers(Case):
    """What the numbers are, by other ways to them."""

    def check(self, answer):
        """The rules that every record keeps: falling, NaN last; a bound from the round before."""
        place = answer.seed.shape[1] + 1
        for values in answer.ritz_values:
            numbers = values[~np.isnan(values)]
            self.assertFalse(np.isnan(values[: numbers.size]).any())
            self.assertTrue((numbers[:-1] >= numbers[1:]).all(), values)
        self.assertEqual(answer.filter_bounds[0], 0.75)
        for bound, values in zip(answer.filter_bounds[1:], answer.ritz_values):
            self.assertEqual(bound, next_bound(values[place]))

    def test_rules(self):
        """With bounds that are raised, lowered and taken as they are."""
        bounds = []
        for dims in (1, 2, 4, 7):
            for graph in (random_graph(60, 4, dims), chain(400), csr([0, 1, 2], [1, 0], [1.0, 1.0])):
                answer = spectral_embedding(graph, dims, degree=60)
                self.check(answer)
                bounds += answer.filter_bounds[1:].tolist()
        self.assertEqual((min(bounds), max(bounds)), (0.1, 0.9995))
        self.assertTrue(any(0.1 < bound < 0.9995 for bound in bounds))

    def test_rules_where_numbers_overflow(self):
        """The oracle's runs that have a NaN among their Ritz values, in the last round or only before it."""
        cases = [case for case in oracle_runs() if case.said["nan"] == "1"]
        self.assertEqual(len(cases), 8)
        for case in cases:
            with self.subTest(case=case.label):
                answer = spectral_embedding(case.graph, **case.words)
                self.check(answer)
                nan = np.isnan(answer.ritz_values).any(axis=1)
                self.assertEqual((nan.any(), nan[-1]), (True, case.said["nan_last"] == "1"))

    def test_eigenvalues(self):
        """After enough rounds the leading values are the operator's own, but for the first of all, 1."""
        for graph, dims in ((random_graph(40, 3, 7), 3), (chain(30), 2)):
            expected = operator_values(graph)
            self.assertAlmostEqual(expected[0], 1.0)
            values = spectral_embedding(graph, dims, rounds=40).ritz_values
            np.testing.assert_allclose(values[-1, : dims + 1], expected[1 : dims + 2], atol=1e-12)

    def test_the_state_has_the_same(self):
        """Round by round: the bound before the products close, and the matrix's diagonal in the Ritz order after it."""
        run = Run.open(random_graph(60, 4, 2), dims=2, rounds=4, degree=3)
        found = []
        while run.is_open:
            stage, bound = run.progress().stage, run._at[0].progress.bound
            run.chunk(0)
            run.close()
            if stage == "products":
                state = run._at[0]
                diagonal = np.array(state.matrix)[:100].reshape(10, 10).diagonal()
                found.append([bound, *diagonal[list(state.order)[:10]]])
        np.testing.assert_array_equal(bits(np.array(found)), bits(run.ritz_record))


class Held(Case):
    """Only closing the products writes it, and only its round's places."""

    words = {"dims": 1, "rounds": 3, "degree": 2}

    def lent(self, run, number):
        return run._at[1][number]

    def test_places_of_unfinished_rounds(self):
        """They hold what was lent, here numbers of the test's own, until their round's products close."""
        graph = random_graph(5000, 2, 3)
        expected = spectral_embedding(graph, **self.words).ritz_record.ravel()
        run = Run.open(graph, **self.words)
        lent = -1.0 - np.arange(30)
        self.lent(run, RECORD)[:] = lent
        closed = 0
        while run.is_open:
            for number in (1, 0):
                run.chunk(number)
            stage = run.progress().stage
            run.close()
            closed += stage == "products"
            np.testing.assert_array_equal(bits(self.lent(run, RECORD)), bits(np.append(expected[: 10 * closed], lent[10 * closed :])))
            self.assertEqual((run.rounds_closed, run.ritz_record.shape), (closed, (closed, 10)))
        self.assertEqual(closed, 3)

    def products(self, graph):
        """A run that stands in the products of its second round, with its chunk done."""
        run = Run.open(graph, **self.words)
        while (run.progress().stage, run._at[0].progress.round) != ("products", 1):
            run.chunk(0)
            run.close()
        run.chunk(0)
        return run

    def test_what_was_answered_stays(self):
        """A caller's array is not the run's memory."""
        run = self.products(random_graph(60, 4, 1))
        first = run.ritz_record
        before = first.copy()
        run.close()
        np.testing.assert_array_equal(first, before)
        first[:] = 0.0
        np.testing.assert_array_equal(run.ritz_record[:1], before)

    def test_a_refused_closing_leaves_it(self):
        run = self.products(random_graph(60, 4, 1))
        run._at[1][MARKS][0] = 0
        before = self.lent(run, RECORD).copy()
        with self.assertRaises(Refusal) as caught:
            run.close()
        self.assertEqual((caught.exception.number, caught.exception.place), (14, 0))
        np.testing.assert_array_equal(self.lent(run, RECORD), before)

    def test_a_closing_that_is_interrupted(self):
        """The run stands before the products' closing, with the record of one round, and goes on."""
        graph = random_graph(60, 4, 1)
        run = self.products(graph)
        before = self.lent(run, RECORD).copy()

        def interrupted(state, memory):
            raise KeyboardInterrupt

        run._stand = interrupted
        with self.assertRaises(KeyboardInterrupt):
            run.close()
        del run._stand
        np.testing.assert_array_equal(self.lent(run, RECORD), before)
        self.assertEqual(run.rounds_closed, 1)
        run.drive()
        self.same(ended(run), spectral_embedding(graph, **self.words))

    def test_saves(self):
        """A file has the rounds that have closed; after each stage the run goes on from it."""
        graph = random_graph(60, 4, 1)
        expected = spectral_embedding(graph, **self.words)
        run = Run.open(graph, **self.words)
        rounds = set()
        with tempfile.TemporaryDirectory() as folder:
            path = pathlib.Path(folder) / "run.held"
            while run.is_open:
                run.chunk(0)
                run.close()
                run.save(path)
                data = np.frombuffer(path.read_bytes()[-8 - 8 * 30 : -8], "<f8")
                np.testing.assert_array_equal(bits(data), bits(self.lent(run, RECORD)))
                run = Run.load(graph, path)
                rounds.add(run.rounds_closed)
                np.testing.assert_array_equal(bits(run.ritz_record), bits(expected.ritz_record[: run.rounds_closed]))
        self.assertEqual(rounds, {0, 1, 2, 3})
        self.same(ended(run), expected)


class Lent(Case):
    """The library's own calls, with a list of another length than this package lends."""

    def setUp(self):
        graph = random_graph(60, 4, 1)
        self.params = _graph.params_of(3, 2, None)
        self.sizes = (1, 3, 60, graph.nnz)
        self.expected = spectral_embedding(graph, 1, 3, 2)
        self.graph_lists = _graph.lists_of(*_graph.stored(graph))

    def memory(self, **lengths):
        """Memory of the sizes that are needed, but for what is named, full of a number that no run writes."""
        needed = dict(enumerate(_graph.lengths_of(*self.sizes)))
        needed.update({int(name[1:]): length for name, length in lengths.items()})
        return [np.full(needed[number], 7, kind) for number, kind in enumerate(_library.MEMORY_KINDS)]

    def call(self, name, words, memory):
        return _library.call(name, *words, *_library.words_of(self.graph_lists + memory))

    def refused_call(self, number, place, name, words, memory):
        """With the memory as it was."""
        before = [array.copy() for array in memory]
        answer = self.call(name, words, memory)
        self.assertEqual((answer.verdict.number, answer.verdict.place), (number, place))
        for array, old in zip(memory, before):
            np.testing.assert_array_equal(array, old)

    def test_sizes(self):
        for dims, rounds in ((1, 1), (2, 5), (7, 1000)):
            self.assertEqual(_graph.lengths_of(dims, rounds, 60, 9)[RECORD], rounds * (dims + 9))

    def test_refused_sizes(self):
        """In document 01's order, and all lengths are zeros then."""
        for words, number in (((8, 0, 0, 2**40), 1), ((2, 0, 0, 2**40), 2), ((2, 0, 60, 2**40), 3), ((2, 0, 60, 9), 8), ((2, 1001, 60, 9), 8)):
            sizes = _library.call("threshcinch_lent_sizes", *words)
            self.assertEqual((sizes.verdict.number, sizes.verdict.place, list(sizes.lengths)), (number, 0, [0] * 11))

    def test_11_at_10(self):
        for name in ("threshcinch_spectral_embedding", "threshcinch_open"):
            for length in (29, 1, 0):
                self.refused_call(11, 10, name, (1, self.params), self.memory(_10=length))
            self.refused_call(11, 9, name, (1, self.params), self.memory(_9=59, _10=29))

    def test_16(self):
        """With a run open a short list is damage, for a chunk and at closing, in the products stage and elsewhere."""
        memory = self.memory()
        state = self.call("threshcinch_open", (1, self.params), memory).state
        stages = set()
        while state.progress.stage != 20:
            short = memory[:RECORD] + [memory[RECORD][:29]]
            self.refused_call(16, 0, "threshcinch_chunk", (state, 0), short)
            self.assertEqual(self.call("threshcinch_chunk", (state, 0), memory).verdict.number, 0)
            self.refused_call(16, 0, "threshcinch_close", (state,), short)
            stages.add(state.progress.stage)
            state = self.call("threshcinch_close", (state,), memory).state
        self.assertEqual(stages, set(range(1, 20)))
        np.testing.assert_array_equal(bits(memory[RECORD]), bits(self.expected.ritz_record.ravel()))

    def test_a_longer_list(self):
        """What lies behind the last round's places is left."""
        memory = self.memory(_10=37)
        self.assertEqual(self.call("threshcinch_spectral_embedding", (1, self.params), memory).verdict.number, 0)
        np.testing.assert_array_equal(bits(memory[RECORD]), bits(np.append(self.expected.ritz_record.ravel(), [7.0] * 7)))
        np.testing.assert_array_equal(bits(memory[OUTPUT]), bits(self.expected.seed.ravel()))
