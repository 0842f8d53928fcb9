"""Tests of the package over the library: documents' cases, the oracle's stored seeds, refusals, and what the binding itself decides."""
import contextlib
import ctypes
import os
import pathlib
import pickle
import re
import subprocess
import sys
import tempfile
import threading
import types
import unittest

import numpy as np
from scipy import sparse

import threshcinch
from threshcinch import Counts, Refusal, _graph, _library, _refusal, _text, read_matrix_market, read_run, spectral_embedding, write_answer, write_run

from .common import PACKAGE, ROOT, VECTORS, Case, Stop, Watch, bits, csr, digest, oracle_runs, random_graph, ring, splitmix


class Document01(Case):
    """The paper's sample and its cases 11 and 12, and the seed of the one call beside that of a held run."""

    def one(self, starts, columns, values):
        seed, counts = spectral_embedding(csr(starts, columns, values), dims=1, rounds=1, degree=1)
        self.assertEqual(seed.dtype, np.float64)
        self.assertEqual(seed.shape, (len(starts) - 1, 1))
        self.assertTrue((bits(seed) == 0).all())
        return counts

    def test_sample(self):
        self.assertEqual(self.one([0, 1], [0], [1.0]), Counts(passes=2, refreshed=9, zeroed=9, isolated=0))

    def test_case_11(self):
        self.assertEqual(self.one([0, 0], [], []), Counts(passes=2, refreshed=8, zeroed=8, isolated=1))

    def test_case_12(self):
        self.assertEqual(self.one([0, 2, 3], [0, 1, 0], [1e308] * 3), Counts(passes=2, refreshed=9, zeroed=9, isolated=0))


class Oracle(Case):
    """The seeds that the Rust gave, wherever port and Rust must agree."""

    def replay(self, case):
        seed, counts = spectral_embedding(case.graph, **case.words)
        found, expected = bits(seed), case.seed
        if case.said["empty"] == "1":  # zeros of either sign match
            found[found == 2**63] = 0
            expected[expected == 2**63] = 0
        np.testing.assert_array_equal(found, expected)
        self.assertEqual(counts, Counts(*(int(case.said[name]) for name in Counts._fields)))

    def test_runs(self):
        agreed = 0
        for case in oracle_runs():
            # twice32 names columns twice, in rows short enough that the Rust's sort kept the input order
            if case.label == "twice32" or (case.said["twice"], case.said["nan"], case.said["falls"]) == ("0", "0", "1"):
                with self.subTest(case=case.label):
                    self.replay(case)
                agreed += 1
        self.assertEqual(agreed, 225)

    def test_three_chunks(self):
        stored = (VECTORS / "big.txt").read_text()
        expected = re.search(r"^big 9000 2 2 2 3\n.*\ndigest=(\w+)$", stored, re.M).group(1)
        watch = Watch()
        graph = ring(9000, 2)
        one = spectral_embedding(graph, dims=2, rounds=2, degree=3)
        self.assertEqual(digest(one[0]), expected)
        self.same(one, spectral_embedding(graph, dims=2, rounds=2, degree=3, progress=watch))
        calls = (9 + 2 * (3 + 2 + 7 * 10)) * 4
        self.assertEqual(watch.told, [(accepted, calls - accepted) for accepted in range(calls + 1)])


class Refusals(Case):
    def setUp(self):
        self.graph = csr([0, 1, 2, 3], [1, 2, 0], [1.0, 2.0, 3.0])

    def test_1_dims(self):
        for dims in (0, 8, -1, 2**64, 2**64 + 1, -(2**64) + 1):
            self.refused(1, 0, self.graph, dims=dims)

    def test_2_no_rows(self):
        self.refused(2, 0, sparse.csr_matrix((0, 0)))

    def test_3_rows(self):
        rows = 1048577
        self.refused(3, 0, sparse.csr_matrix((rows, rows)))

    def test_3_entries(self):
        # views of one number: the limit is told before anything of that length is made
        entries = 67108865
        self.graph.indptr = np.array([0, 0, 0, entries])
        self.graph.indices = np.broadcast_to(np.int32(0), entries)
        self.graph.data = np.broadcast_to(1.0, entries)
        self.refused(3, 0, self.graph)

    def test_4_lengths(self):
        self.graph.data = self.graph.data[:2]
        self.refused(4, 0, self.graph)

    def test_5_starts(self):
        for starts, place in (([1, 1, 2, 3], 0), ([0, 2, 1, 3], 2), ([0, 1, 2, 4], 3), ([-1, 1, 2, 3], 0), ([0, 1, 2, -3], 3)):
            for kind in (np.int32, np.int64):
                self.graph.indptr = np.array(starts, kind)
                self.refused(5, place, self.graph)
        self.graph.indptr = np.array([2**32, 1, 2, 3])
        self.refused(5, 0, self.graph)

    def test_6_columns(self):
        for kind, wrong in ((np.int32, 3), (np.int32, -1), (np.int64, 3), (np.int64, -1), (np.int64, 2**32), (np.int64, -(2**32) + 1)):
            self.graph.indices = np.array([0, 1, wrong], kind)
            self.refused(6, 2, self.graph)

    def test_7_values(self):
        for wrong in (np.nan, np.inf, -np.inf):
            self.graph.data[1] = wrong
            self.refused(7, 1, self.graph)

    def test_8_rounds(self):
        for rounds in (0, 1001, -1, 2**64 + 5):
            self.refused(8, 0, self.graph, rounds=rounds)

    def test_9_degree(self):
        for degree in (0, 1001, -1, 2**64 + 5):
            self.refused(9, 0, self.graph, degree=degree)

    def test_10_seed_std(self):
        for seed_std in (0.0, -1e-4, np.nan, np.inf):
            self.refused(10, 0, self.graph, seed_std=seed_std)

    def test_order(self):
        """With everything wrong the lowest number comes first, as document 01 tests them."""
        self.graph.data[0] = np.nan
        self.refused(1, 0, self.graph, dims=0, rounds=0, degree=0, seed_std=0.0)
        self.refused(7, 0, self.graph, rounds=0, degree=0, seed_std=0.0)
        self.graph.data[0] = 1.0
        self.refused(8, 0, self.graph, rounds=0, degree=0, seed_std=0.0)
        self.refused(9, 0, self.graph, degree=0, seed_std=0.0)

    def test_limits_are_taken(self):
        for words in ({"dims": 1}, {"dims": 7}, {"rounds": 1}, {"rounds": 1000}, {"degree": 1}, {"degree": 1000}, {"seed_std": 5e-324}):
            spectral_embedding(self.graph, **words)

    def test_exception(self):
        refusal = Refusal(6, 12)
        self.assertEqual(str(refusal), "refusal 6 at 12: a column is not below the number of rows")
        again = pickle.loads(pickle.dumps(refusal))
        self.assertEqual((again.number, again.place, again.words), (refusal.number, refusal.place, refusal.words))
        self.assertIsInstance(refusal, ValueError)


class Graphs(Case):
    def test_defaults(self):
        graph = random_graph(60, 4, 1)
        self.same(spectral_embedding(graph), spectral_embedding(graph, 2, 5, 20, 1e-4))
        seed, counts = spectral_embedding(graph)
        self.assertEqual((seed.shape, counts.passes), ((60, 2), 5 * 21))

    def test_random_graphs_both_ways(self):
        for number in range(12):
            graph = random_graph(5 + 37 * number, 1 + number % 5, number)
            words = {"dims": 1 + number % 7, "rounds": 1 + number % 3, "degree": 1 + 3 * number % 8, "seed_std": 0.5 + number}
            with self.subTest(number=number):
                watch = Watch()
                one = spectral_embedding(graph, **words)
                self.same(one, spectral_embedding(graph, progress=watch, **words))
                accepted = 9 + words["rounds"] * (words["degree"] + 2 + 7 * (words["dims"] + 8)) + 7 * one[1].refreshed
                self.assertEqual([told[0] for told in watch.told], list(range(2 * accepted + 1)))
                self.assertEqual(watch.told[-1], (2 * accepted, 0))
                self.assertEqual(watch.told[0][1], 2 * (accepted - 7 * one[1].refreshed))

    def test_eigenvectors(self):
        """After many rounds the seed is what a dense solver finds: an independent judge, within rounding."""
        graph = random_graph(40, 3, 7)
        dense = graph.toarray()
        inverse = 1 / np.sqrt(dense.sum(axis=1))
        found = np.linalg.eigh(0.5 * (np.eye(40) + inverse[:, None] * dense * inverse))[1][:, ::-1][:, 1:4] * inverse[:, None]
        found -= found.mean(axis=0)
        found /= found.std(axis=0)
        seed, _ = spectral_embedding(graph, dims=3, rounds=40, seed_std=1.0)
        signs = np.sign((found * seed).sum(axis=0))
        np.testing.assert_allclose(seed, found * signs, atol=1e-8)

    def test_graph_is_only_read(self):
        graph = random_graph(50, 3, 2)
        graph.indices[graph.indptr[3] : graph.indptr[4]] = graph.indices[graph.indptr[3] : graph.indptr[4]][::-1].copy()
        for array in (graph.indptr, graph.indices, graph.data):
            array.setflags(write=False)
        before = (graph.indptr.copy(), graph.indices.copy(), graph.data.copy(), set(vars(graph)))
        spectral_embedding(graph)
        spectral_embedding(graph, progress=Watch())
        for array, old in zip((graph.indptr, graph.indices, graph.data), before):
            np.testing.assert_array_equal(array, old)
        self.assertEqual(set(vars(graph)), before[3])

    def star(self, columns, values):
        """Row 0 has these entries; rows 1 to 5 have row 0 and the row after them."""
        return csr([0] + [len(columns) + 2 * i for i in range(6)], columns + [0, 2, 0, 3, 0, 4, 0, 5, 0, 1], values + [1.0, 2.0] * 5)

    def differ(self, one, other):
        self.assertTrue((one.toarray() == other.toarray()).all())
        self.assertTrue((bits(spectral_embedding(one)[0]) != bits(spectral_embedding(other)[0])).any())

    def test_order_of_entries_matters(self):
        """A row's degree is summed as its entries stand: 1 and then four times 2^-53 is 1, the other way round it is more."""
        small = [2.0**-53] * 4
        self.differ(self.star([1, 2, 3, 4, 5], [1.0] + small), self.star([2, 3, 4, 5, 1], small + [1.0]))

    def test_columns_twice_are_not_summed(self):
        """The same within one column: 1 and then four times 2^-53 is not 1 and then their sum."""
        several = self.star([1, 2, 2, 2, 2], [1.0] + [2.0**-53] * 4)
        once = several.copy()
        once.sum_duplicates()
        self.assertEqual((several.nnz, once.nnz), (15, 12))
        self.differ(several, once)
        self.assertEqual(several.nnz, 15)

    def test_kinds_of_index_arrays(self):
        graph = random_graph(70, 3, 3)
        expected = spectral_embedding(graph)
        for kind in (np.int32, np.int64, np.uint32, np.uint64, ">i4", ">i8"):
            other = graph.copy()
            other.indices = graph.indices.astype(kind)
            other.indptr = graph.indptr.astype(kind)
            with self.subTest(kind=str(kind)):
                self.same(spectral_embedding(other), expected)

    def test_kinds_of_values(self):
        graph = random_graph(70, 3, 3)
        graph.data = np.round(graph.data * 100)
        expected = spectral_embedding(graph)
        for kind in (np.int64, np.uint8, np.float32, ">f8"):
            with self.subTest(kind=str(kind)):
                other = graph.copy()
                other.data = graph.data.astype(kind)
                self.same(spectral_embedding(other), expected)

    def test_arrays_in_pieces(self):
        graph = random_graph(70, 3, 3)
        expected = spectral_embedding(graph)
        strided, crooked, longer = graph.copy(), graph.copy(), graph.copy()
        strided.data = np.repeat(graph.data, 2)[::2]
        strided.indices = np.repeat(graph.indices, 2)[::2]
        crooked.data = np.frombuffer(b"x" + graph.data.tobytes(), np.float64, offset=1)
        crooked.indices = np.frombuffer(b"x" + graph.indices.tobytes(), np.int32, offset=1)
        longer.data = np.append(graph.data, np.nan)
        longer.indices = np.append(graph.indices, [5, 5]).astype(np.int32)
        self.assertFalse(crooked.data.flags.aligned)
        for other in (strided, crooked, longer, sparse.csr_array(graph)):
            self.same(spectral_embedding(other), expected)

    def test_no_list_is_null(self):
        """Arrays that other software lends to NumPy may have no address if they are empty."""
        empty = types.SimpleNamespace(size=0, ctypes=types.SimpleNamespace(data=0))
        address, length = _library.words_of([empty])
        self.assertNotEqual(address, 0)
        self.assertEqual(length, 0)

    def test_no_entries(self):
        seed, counts = spectral_embedding(sparse.csr_matrix((5, 5)), dims=3)
        self.assertEqual((seed.shape, counts.isolated), ((5, 3), 5))
        self.assertTrue(np.isfinite(seed).all())

    def test_not_a_square_csr_matrix(self):
        graph = random_graph(10, 2, 4)
        for wrong in (sparse.csr_matrix((3, 4)), sparse.csr_matrix((0, 1))):
            with self.assertRaisesRegex(ValueError, "square"):
                spectral_embedding(wrong)
        for wrong in (graph.toarray(), None):
            with self.assertRaisesRegex(TypeError, "csr_matrix or csr_array, not [a-zA-Z]+$"):
                spectral_embedding(wrong)
        for wrong in (graph.tocsc(), graph.tocoo()):
            with self.assertRaisesRegex(TypeError, r"csr_matrix.*: graph\.tocsr\(\) makes one$"):
                spectral_embedding(wrong)
        for kind in (complex, np.longdouble):
            with self.assertRaisesRegex(TypeError, "values"):
                spectral_embedding(graph.astype(kind))
        graph.indptr = graph.indptr[:-1]
        with self.assertRaisesRegex(ValueError, "arrays"):
            spectral_embedding(graph)

    def test_words_of_wrong_kinds(self):
        graph = random_graph(10, 2, 4)
        for words in ({"dims": 2.0}, {"dims": None}, {"rounds": 1.5}, {"degree": "20"}, {"seed_std": "much"}, {"progress": 3}):
            with self.assertRaises((TypeError, ValueError)) as caught:
                spectral_embedding(graph, **words)
            self.assertNotIsInstance(caught.exception, Refusal)

    def test_progress_that_raises(self):
        graph = random_graph(50, 3, 5)
        expected = spectral_embedding(graph)
        for last in (0, 1, 2, 77):
            told = []

            def progress(accepted, owed):
                told.append(accepted)
                if accepted == last:
                    raise Stop(accepted)

            with self.assertRaises(Stop):
                spectral_embedding(graph, progress=progress)
            self.assertEqual(told, list(range(last + 1)))
        self.same(spectral_embedding(graph, progress=Watch()), expected)


# MXCSR in several environments. None where an exception traps: Python's own arithmetic would end the process.
ENVIRONMENTS = {
    "nearest": 0x1F80,
    "downward": 0x3F80,
    "upward": 0x5F80,
    "toward zero": 0x7F80,
    "flush-to-zero": 0x9F80,
    "denormals-are-zero": 0x1FC0,
    "flush-to-zero, denormals-are-zero": 0x9FC0,
    "upward and all bits set": 0xDFFF,
    "toward zero and all bits set": 0xFFFF,
}


def register():
    """This thread's control register."""
    found = _library.Environment()
    _library.c.fegetenv(found)
    return found.mxcsr


@contextlib.contextmanager
def environment(mxcsr):
    """The thread with its control register so."""
    found = _library.Environment()
    _library.c.fegetenv(found)
    _library.c.fesetenv(_library.Environment(found.x87, mxcsr))
    try:
        yield
    finally:
        _library.c.fesetenv(found)


def control(mxcsr):
    """The register without the flags of raised exceptions, which the test's own arithmetic may raise."""
    return mxcsr & ~0x3F


def subnormal_ring(rows):
    """Each row has the rows that lie one and three before and after it; every value is subnormal."""
    columns = [(row + step) % rows for row in range(rows) for step in (1, -1, 3, -3)]
    pairs = [(min(entry // 4, column), max(entry // 4, column)) for entry, column in enumerate(columns)]
    values = np.array([splitmix(low << 32 | high) >> 12 for low, high in pairs], np.uint64).view(np.float64)
    return csr(range(0, 4 * rows + 1, 4), columns, values)


class Environments(Case):
    """In each floating-point environment the bits are the default's, and the environment is afterwards as it was."""

    def setUp(self):
        self.graph = subnormal_ring(60)
        self.words = {"dims": 1, "rounds": 1, "degree": 2}

    def in_each(self, work):
        """Each environment's name, and what the work answered in it. Nothing is looked at before the environment is the default again."""
        answers = {}
        for name, mxcsr in ENVIRONMENTS.items():
            with environment(mxcsr):
                answers[name] = work()
                left = register()
            self.assertEqual(control(left), control(mxcsr), name)
        return answers.items()

    def bare_call(self):
        """The library's own function with nothing around it: its arguments, made in the default environment."""
        params = _graph.params_of(self.words["rounds"], self.words["degree"], None)
        sizes = _library.call("threshcinch_lent_sizes", 1, params.rounds, self.graph.shape[0], self.graph.nnz)
        memory = [np.zeros(length, kind) for length, kind in zip(sizes.lengths, _library.MEMORY_KINDS)]
        lists = _graph.lists_of(*_graph.stored(self.graph)) + memory
        return lists, [1, params] + _library.words_of(lists)

    def test_the_bare_call_shows_the_environment(self):
        """So that a binding that sets nothing would be found out."""
        expected = bits(spectral_embedding(self.graph, **self.words)[0]).ravel()
        lists, words = self.bare_call()

        def work():
            embedded = _library.library.threshcinch_spectral_embedding(*words)
            return embedded.verdict.number, lists[3 + _library.OUTPUT].copy()

        for name, (number, seed) in self.in_each(work):
            self.assertEqual((number, (bits(seed) != expected).any()), (0, name != "nearest"), name)

    def test_one_call(self):
        expected = spectral_embedding(self.graph, **self.words)
        for name, found in self.in_each(lambda: spectral_embedding(self.graph, **self.words)):
            self.same(found, expected)

    def test_held_run(self):
        """Progress is the caller's own code, and has the caller's environment."""
        expected = spectral_embedding(self.graph, **self.words)
        watch = Watch()
        spectral_embedding(self.graph, progress=watch, **self.words)

        def work():
            told, registers = [], []

            def progress(accepted, owed):
                told.append((accepted, owed))
                registers.append(register())

            return spectral_embedding(self.graph, progress=progress, **self.words), told, registers

        for name, (found, told, registers) in self.in_each(work):
            self.same(found, expected)
            self.assertEqual(told, watch.told)
            self.assertEqual({control(found) for found in registers}, {control(ENVIRONMENTS[name])})

    def test_threads(self):
        """Two chunks and two threads: the second one has its maker's environment, and makes its calls in the default one."""
        graph = subnormal_ring(4097)
        expected = spectral_embedding(graph, **self.words)
        for name in ("upward", "flush-to-zero, denormals-are-zero"):
            with environment(ENVIRONMENTS[name]):
                found = spectral_embedding(graph, threads=2, **self.words)
            self.same(found, expected)

    def test_a_call_leaves_every_bit(self):
        """Also the flags of exceptions: those that were raised stay, and a call, which rounds, raises none."""
        _, words = self.bare_call()
        for name, mxcsr in ENVIRONMENTS.items():
            for flags in (0, 0x15, 0x3F):
                with environment(control(mxcsr) | flags):
                    before = register()
                    _library.call("threshcinch_spectral_embedding", *words)
                    after = register()
                self.assertEqual((before, after), (control(mxcsr) | flags,) * 2, name)

    def test_what_is_raised_inside_leaves_the_environment(self):
        with environment(0xFFC0):
            with self.assertRaises(Refusal):
                spectral_embedding(self.graph, dims=8)
            with self.assertRaises(ctypes.ArgumentError):
                _library.call("threshcinch_calls_owed", "many")
            left = register()
        self.assertEqual(control(left), 0xFFC0)

    def test_the_least_seed_std(self):
        expected = spectral_embedding(self.graph, seed_std=5e-324, **self.words)
        for name, found in self.in_each(lambda: spectral_embedding(self.graph, seed_std=5e-324, **self.words)):
            self.same(found, expected)

    def test_conversions(self):
        """float32 has subnormal numbers of its own, and whole numbers above 2^53 round when they become float64."""
        small, large = self.graph.copy(), self.graph.copy()
        small.data = np.arange(1, small.nnz + 1, dtype=np.uint32).view(np.float32)
        large.data = np.int64(2) ** 53 + np.arange(1, large.nnz + 1, dtype=np.int64)
        for graph, seed_std in ((small, np.float32(1e-42)), (large, 2**53 + 1)):
            expected = spectral_embedding(graph, seed_std=seed_std, **self.words)
            for name, found in self.in_each(lambda: spectral_embedding(graph, seed_std=seed_std, **self.words)):
                self.same(found, expected)

    def test_texts(self):
        """Subnormal numbers are neither refused nor changed, on either way."""

        def work():
            text = write_run(self.graph, seed_std=5e-324)
            file = read_run(text)
            return text, write_run(file.graph, file.dims, file.rounds, file.degree, file.seed_std), write_answer((seed, Counts(1, 2, 3, 4)))

        seed = self.graph.data[:60].reshape(30, 2)
        expected = work()
        self.assertIn(b"seed_std=0000000000000001\n", expected[0])
        for name, found in self.in_each(work):
            self.assertEqual(found, expected, name)

    def test_matrix_market(self):
        """A graph is read as in the default environment, its values too."""

        def work():
            graph = read_matrix_market(b"%%MatrixMarket matrix coordinate pattern symmetric\n2 2 2\n2 2\n2 1\n")
            return graph.indptr.tolist(), graph.indices.tolist(), graph.data.tobytes()

        for name, found in self.in_each(work):
            self.assertEqual(found, ([0, 1, 3], [1, 0, 1], np.ones(3).tobytes()), name)

    def test_a_thread_has_its_makers_environment(self):
        expected = spectral_embedding(self.graph, **self.words)
        found = []

        def work():
            found.append((control(register()), spectral_embedding(self.graph, **self.words), control(register())))

        for name, mxcsr in ENVIRONMENTS.items():
            with environment(mxcsr):
                thread = threading.Thread(target=work)
                thread.start()
                thread.join()
            before, answer, after = found.pop()
            self.assertEqual((before, after), (control(mxcsr),) * 2, name)
            self.same(answer, expected)


class Module(Case):
    """What the module says of the header and of a machine without the library."""

    def header(self):
        return (ROOT / "include" / "threshcinch.h").read_text()

    def kind(self, kind):
        """A field's kind in the header's words; size_t and uint64_t are one kind to ctypes."""
        kind = kind._type_ if issubclass(kind, ctypes.Array) else kind
        names = {ctypes.c_uint64: "whole", ctypes.c_uint32: "uint32_t", ctypes.c_double: "double"}
        return names.get(kind) or "threshcinch" + re.sub("[A-Z]", lambda letter: "_" + letter.group().lower(), kind.__name__)

    def test_records_are_the_headers(self):
        for record, size in _library.SIZES.items():
            name = self.kind(record)
            with self.subTest(record=name):
                body = re.search(r"typedef struct \{([^}]*)\} " + name + ";", self.header()).group(1)
                fields = re.findall(r"(\w+) (\w+)(?:\[\w+\])?;", re.sub(r"\b(size_t|uint64_t)\b", "whole", body))
                self.assertEqual([(self.kind(kind), field) for field, kind in record._fields_], fields)
                self.assertIn(f"sizeof({name}) == {size}", self.header())

    def test_sizes_of_texts_are_the_headers(self):
        found = {name: int(number) for name, number in re.findall(r"THRESHCINCH_((?:FILE|ANSWER)_\w+) = (\d+)", self.header())}
        starts, columns, values = _text._MOST
        self.assertEqual(columns, values)
        held = {"FILE_ROUNDS": 400, "FILE_STARTS": starts, "FILE_ENTRIES": columns, "FILE_BYTES": _text.FILE_BYTES, "ANSWER_BYTES": _text.ANSWER_BYTES}
        self.assertEqual(found, held)

    def test_words_are_the_headers(self):
        found = {int(number): words for number, words in re.findall(r'case (\d+): return "([^"]*)";', self.header())}
        del found[0]
        self.assertEqual(_refusal.WORDS, found)

    def test_public_names(self):
        """All that is public is named, and all that is named is there."""
        public = {name for name, what in vars(threshcinch).items() if not name.startswith("_") and not isinstance(what, types.ModuleType)}
        self.assertEqual(public, set(threshcinch.__all__))
        for name in public:
            self.assertTrue(getattr(threshcinch, name).__doc__, name)
        self.assertEqual([path.name for path in (PACKAGE / "threshcinch").glob("[!_]*.py")], [])

    def test_counts_are_told_with_their_meaning(self):
        for name in Counts._fields:
            self.assertRegex(Counts.__doc__, rf"(?m)^ *{name} +\w")  # Python 3.13 takes the indent away

    def test_version_is_the_others(self):
        cargo = (ROOT / "bindings" / "rust" / "Cargo.toml").read_text()
        self.assertIn(f'version = "{threshcinch.__version__}"', cargo)
        self.assertIn(f'#define THRESHCINCH_VERSION "{threshcinch.__version__}"\n', self.header())

    def fails(self, code, **words):
        words = {**os.environ, "PYTHONPATH": str(PACKAGE), **words}
        done = subprocess.run([sys.executable, "-c", code], env=words, capture_output=True, text=True)
        self.assertEqual(done.returncode, 1)
        last = done.stderr.strip().split("\n")[-1]
        self.assertTrue(last.startswith("ImportError: threshcinch: "), last)
        self.assertEqual(done.stderr.count("Traceback"), 1, done.stderr)
        return last

    def test_no_folder(self):
        """THRESHCINCH_LIB is a folder, for Rust and Python alike: neither the library itself nor something that is not there."""
        for wrong in (_library.library._name, str(PACKAGE / "nothing")):
            self.assertIn("THRESHCINCH_LIB must name the folder", self.fails("import threshcinch", THRESHCINCH_LIB=wrong))

    def test_no_library(self):
        self.assertIn("library/build", self.fails("import threshcinch", THRESHCINCH_LIB=str(PACKAGE)))

    def test_a_library_without_the_functions(self):
        with tempfile.TemporaryDirectory() as folder:
            os.symlink(self.libc(), os.path.join(folder, "libthreshcinch.so"))
            self.assertIn("threshcinch_params_new", self.fails("import threshcinch", THRESHCINCH_LIB=folder))

    def test_a_library_of_another_version(self):
        """It has every function's name, and other records: the version alone tells."""
        data = pathlib.Path(_library.library._name).read_bytes()
        ours = threshcinch.__version__.encode() + b"\0"
        self.assertTrue(threshcinch.__version__.startswith(_library.SERIES))
        self.assertEqual(data.count(ours), 1)
        with tempfile.TemporaryDirectory() as folder:
            pathlib.Path(folder, "libthreshcinch.so").write_bytes(data.replace(ours, b"0.2.1\0"))
            last = self.fails("import threshcinch", THRESHCINCH_LIB=folder)
        self.assertIn("is version 0.2.1, and this package needs 0.3.x", last)

    def libc(self):
        """The C library that this process has: a library, but not ours."""
        maps = pathlib.Path("/proc/self/maps").read_text()
        return re.search(r"\S*/libc(\.so\.6|-[\d.]+\.so)$", maps, re.M).group(0)

    def test_another_machine(self):
        last = self.fails("import platform; platform.machine = lambda: 'aarch64'; import threshcinch")
        self.assertIn("x86-64", last)
        self.assertIn("aarch64", last)

    def test_the_library_is_found_in_its_folder(self):
        folder = os.path.dirname(_library.library._name)
        words = {**os.environ, "PYTHONPATH": str(PACKAGE), "THRESHCINCH_LIB": folder}
        subprocess.run([sys.executable, "-c", "import threshcinch"], env=words, check=True)


if __name__ == "__main__":
    unittest.main()
