"""Run files and answers as bytes: both ways, bit for bit, each refusal with its place, and rooms that are too small."""
import mmap
import struct
import tempfile
import unittest

import numpy as np
from scipy import sparse

from threshcinch import Counts, Embedding, Refusal, RunFile, _graph, _library, _refusal, _text, read_run, spectral_embedding, write_answer, write_run

from .common import NAN, ROOT, bits, csr, oracle_runs, random_graph

# document 01's run file, and the whole of what is printed for it
SAMPLE = b"d=1\nrounds=1\ndegree=1\nseed_std=3f1a36e2eb1c432d\nstarts=0,1\ncolumns=0\nvalues=3ff0000000000000\n"
PRINTED = b"answer=0\nn=1\npasses=2\nrefreshed=9\nzeroed=9\nisolated=0\nrow=0000000000000000\n"

LARGEST = float.fromhex("0x1.fffffffffffffp+1023")
# both zeros, the least and the largest subnormal number, the least normal one, the largest one, and their negatives
AWKWARD = [sign * value for value in (0.0, 5e-324, 2.0**-1022 - 2.0**-1074, 2.0**-1022, 1 / 3, LARGEST) for sign in (1, -1)]


def hex_of(number):
    return struct.pack(">d", number).hex()


def text_of(dims, rounds, degree, seed_std, starts, columns, values):
    """The seven lines, written a second time here."""
    lists = (",".join(map(str, starts)), ",".join(map(str, columns)), ",".join(map(hex_of, values)))
    return "d={}\nrounds={}\ndegree={}\nseed_std={}\nstarts={}\ncolumns={}\nvalues={}\n".format(dims, rounds, degree, hex_of(seed_std), *lists).encode()


def awkward_graph():
    """An empty row, rows that do not rise, a column that stands twice, and every awkward value."""
    return csr([0, 5, 5, 8, 12], [3, 1, 1, 0, 2, 2, 0, 1, 3, 2, 1, 0], AWKWARD)


def unchecked(starts, columns, values):
    """A matrix of arrays that SciPy's constructor would refuse."""
    rows = len(starts) - 1
    graph = sparse.csr_matrix((rows, rows))
    graph.indptr, graph.indices, graph.data = np.array(starts), np.array(columns), np.array(values)
    return graph


def written_again(file):
    return write_run(file.graph, file.dims, file.rounds, file.degree, file.seed_std)


class Texts(unittest.TestCase):
    def refused(self, number, place, work, *words, **more):
        with self.assertRaises(Refusal) as caught:
            work(*words, **more)
        self.assertEqual((caught.exception.number, caught.exception.place), (number, place))
        self.assertEqual(caught.exception.words, _refusal.WORDS[number])

    def into(self, room, put):
        """The length that was put, or the refusal's number and place, and then all of a text that had so many bytes of 170 before."""
        text = np.full(room, 170, np.uint8)
        try:
            return put(text), text.tobytes()
        except Refusal as refusal:
            return (refusal.number, refusal.place), text.tobytes()

    def has(self, file, dims, rounds, degree, seed_std, starts, columns, values):
        self.assertEqual((file.dims, file.rounds, file.degree, hex_of(file.seed_std)), (dims, rounds, degree, hex_of(seed_std)))
        for found, kind, expected in zip(file[4:], (np.uint64, np.uint32, np.float64), (starts, columns, values)):
            self.assertEqual(found.dtype, kind)
            self.assertEqual(found.tobytes(), np.array(expected, kind).tobytes())


class BothWays(Texts):
    def test_the_documents_sample(self):
        graph = csr([0, 1], [0], [1.0])
        self.assertEqual(write_run(graph, 1, 1, 1), SAMPLE)
        self.has(read_run(SAMPLE), 1, 1, 1, 1e-4, [0, 1], [0], [1.0])
        self.assertEqual(write_answer(spectral_embedding(graph, 1, 1, 1)), PRINTED)

    def test_defaults_are_spectral_embeddings(self):
        self.assertEqual(write_run(csr([0, 1], [0], [1.0])), text_of(2, 5, 20, 1e-4, [0, 1], [0], [1.0]))

    def test_every_bit(self):
        graph = awkward_graph()
        for dims, rounds, degree, seed_std in ((1, 1, 1, 5e-324), (7, 400, 1000, LARGEST), (3, 5, 20, 2.0**-1022)):
            words = (dims, rounds, degree, seed_std, graph.indptr, graph.indices, graph.data)
            text = write_run(graph, dims, rounds, degree, seed_std)
            self.assertEqual(text, text_of(*words))
            self.has(read_run(text), *words)
            self.assertEqual(written_again(read_run(text)), text)

    def test_the_graph_that_was_read(self):
        """A matrix of its own each time, with every entry as it stood: nothing is sorted, summed or left out."""
        graph, file = awkward_graph(), read_run(write_run(awkward_graph()))
        found = file.graph
        self.assertEqual((type(found), found.shape, found.dtype), (sparse.csr_matrix, (4, 4), np.float64))
        for one, other in ((found.indptr, graph.indptr), (found.indices, graph.indices), (found.data.view(np.uint64), graph.data.view(np.uint64))):
            np.testing.assert_array_equal(one, other)
        found.sum_duplicates()
        np.testing.assert_array_equal(bits(file.graph.data), bits(graph.data))

    def test_the_graph_is_only_read(self):
        graph = awkward_graph()
        for array in (graph.indptr, graph.indices, graph.data):
            array.setflags(write=False)
        self.assertEqual(write_run(graph), write_run(awkward_graph()))

    def test_random_files(self):
        chance = np.random.default_rng(18)
        for _ in range(300):
            rows, entries = int(chance.integers(1, 65)), int(chance.integers(0, 1025))
            starts = np.sort(np.append(chance.integers(0, entries + 1, rows - 1), [0, entries]))
            numbers = chance.integers(0, 2**64, entries + 1, np.uint64)
            numbers[(numbers >> np.uint64(52)) % np.uint64(2048) == 2047] = 1 << 63  # neither NaN nor infinite
            values, seed_std = numbers[1:].view(np.float64), abs(float(numbers[:1].view(np.float64)[0])) or 1.0
            words = [int(chance.integers(1, most)) for most in (8, 401, 1001)] + [seed_std, starts, chance.integers(0, rows, entries), values]
            text = write_run(csr(*words[4:]), *words[:4])
            self.assertEqual(text, text_of(*words))
            self.has(read_run(text), *words)
            self.assertEqual(written_again(read_run(text)), text)

    def test_stored_files(self):
        """Each example, and each of the oracle's graphs that a run file holds, is written again as its own bytes."""
        texts = [path.read_bytes() for path in sorted((ROOT / "examples").glob("*.run"))]
        self.assertEqual(len(texts), 3)
        for case in oracle_runs():
            if case.words["rounds"] <= 400:
                texts.append(text_of(*case.words.values(), case.graph.indptr, case.graph.indices, case.graph.data))
        self.assertGreater(len(texts), 300)
        for text in texts:
            self.assertEqual(written_again(read_run(text)), text)

    def test_the_largest_file(self):
        """No limit is hidden: 64 rows with 1,024 entries of two-digit columns."""
        graph = csr(range(0, 1025, 16), [63] * 1024, [-LARGEST] * 1024)
        text = write_run(graph, 7, 400, 1000, LARGEST)
        self.assertLess(len(text), _text.FILE_BYTES)
        self.assertEqual(written_again(read_run(text)), text)

    def test_kinds_of_arrays(self):
        """As spectral_embedding takes them: other kinds become the library's, and what lies behind the last start is no part of it."""
        graph = random_graph(20, 3, 3)
        graph.data = np.round(graph.data * 100)
        expected = write_run(graph)
        other = sparse.csr_array(graph)
        other.indptr, other.indices, other.data = graph.indptr.astype(np.int64), graph.indices.astype(">i8"), graph.data.astype(np.float32)
        longer = graph.copy()
        longer.indices, longer.data = np.append(graph.indices, 99).astype(np.int32), np.append(graph.data, np.nan)
        for same in (other, longer):
            self.assertEqual(write_run(same), expected)

    def test_what_is_no_graph(self):
        for wrong in (random_graph(5, 2, 1).tocsc(), np.eye(3), None, read_run(SAMPLE)):
            with self.assertRaisesRegex(TypeError, "csr_matrix or csr_array"):
                write_run(wrong)

    def test_kinds_of_bytes(self):
        with tempfile.TemporaryFile() as file:
            file.write(SAMPLE)
            file.flush()
            with mmap.mmap(file.fileno(), 0) as mapped:
                for data in (SAMPLE, bytearray(SAMPLE), memoryview(b"x" + SAMPLE)[1:], mapped):
                    self.has(read_run(data), 1, 1, 1, 1e-4, [0, 1], [0], [1.0])
        with self.assertRaises(TypeError):
            read_run(SAMPLE.decode())


class WritingRefused(Texts):
    def setUp(self):
        self.graph = csr([0, 1, 2, 3], [1, 2, 0], [1.0, 2.0, 3.0])

    def test_17_rounds(self):
        for rounds in (401, 1000, 1001, 2**64 - 1, 2**64):
            self.refused(17, 2, write_run, self.graph, rounds=rounds)
        write_run(self.graph, rounds=400)

    def test_17_rows(self):
        self.refused(17, 5, write_run, sparse.csr_matrix((65, 65)))
        write_run(sparse.csr_matrix((64, 64)))

    def entries(self, columns, values, last):
        self.graph.indptr = np.array([0, 0, 0, last])
        self.graph.indices, self.graph.data = np.zeros(columns, np.int32), np.ones(values)

    def test_17_columns_and_values(self):
        self.entries(1025, 1025, 1025)
        self.refused(17, 6, write_run, self.graph)
        self.entries(1024, 1025, 1025)
        self.refused(17, 7, write_run, self.graph)
        self.entries(1024, 1024, 1024)
        write_run(self.graph)

    def test_17_before_anything_of_that_length_is_made(self):
        """Views of one number: a copy of all of them would need the memory of ten machines."""
        entries = 2**36
        self.graph.indptr = np.array([0, 0, 0, entries])
        self.graph.indices, self.graph.data = np.broadcast_to(np.int64(0), entries), np.broadcast_to(np.float32(1), entries)
        self.refused(17, 6, write_run, self.graph)

    def test_1_dims(self):
        for dims in (0, 8, -1, 2**64, 2**64 + 1):
            self.refused(1, 0, write_run, self.graph, dims)

    def test_2_no_rows(self):
        self.refused(2, 0, write_run, sparse.csr_matrix((0, 0)))

    def test_4_lengths(self):
        self.graph.data = self.graph.data[:2]
        self.refused(4, 0, write_run, self.graph)

    def test_5_starts(self):
        for starts, place in (([1, 1, 2, 3], 0), ([0, 2, 1, 3], 2), ([0, 1, 2, 4], 3), ([-1, 1, 2, 3], 0), ([0, 1, 2, -3], 3)):
            self.graph.indptr = np.array(starts)
            self.refused(5, place, write_run, self.graph)

    def test_6_columns(self):
        for kind, wrong in ((np.int32, 3), (np.int32, -1), (np.int64, 2**32)):
            self.graph.indices = np.array([0, wrong, wrong], kind)
            self.refused(6, 1, write_run, self.graph)

    def test_7_values(self):
        for wrong in (np.nan, np.inf, -np.inf):
            self.graph.data[1:] = wrong
            self.refused(7, 1, write_run, self.graph)

    def test_8_to_10_parameters(self):
        for rounds in (0, -1, -(2**64) + 5):
            self.refused(8, 0, write_run, self.graph, rounds=rounds)
        for degree in (0, 1001, -1, 2**64 + 5):
            self.refused(9, 0, write_run, self.graph, degree=degree)
        for seed_std in (0.0, -0.0, -1e-4, np.nan, np.inf):
            self.refused(10, 0, write_run, self.graph, seed_std=seed_std)

    def test_order(self):
        """With everything wrong: 17 and its lines first, then 1 to 10, one after the other as each is put right."""
        words = {"dims": 0, "rounds": 401, "degree": 0, "seed_std": 0.0}
        lists = {"starts": [1] + [2000] * 65, "columns": [99] * 1025, "values": [np.nan] * 1026}
        for number, place, put_right in (
            (17, 2, {"rounds": 0}),
            (17, 5, {"starts": [1, 2000, 1999, 2000]}),
            (17, 6, {"columns": [99] * 1024}),
            (17, 7, {"values": [np.nan] * 1023}),
            (1, 0, {"dims": 7}),
            (4, 0, {"columns": [99] * 1023}),
            (5, 0, {"starts": [0, 2000, 1999, 2000]}),
            (5, 2, {"starts": [0, 2000, 2000, 2000]}),
            (5, 3, {"starts": [0, 0, 0, 1023]}),
            (6, 0, {"columns": [2] * 1023}),
            (7, 0, {"values": [1.0] * 1023}),
            (8, 0, {"rounds": 1}),
            (9, 0, {"degree": 1}),
            (10, 0, {"seed_std": 1.0}),
        ):
            self.refused(number, place, write_run, unchecked(**lists), **words)
            (words if put_right.keys() <= words.keys() else lists).update(put_right)
        self.assertEqual(write_run(unchecked(**lists), **words), text_of(*words.values(), *lists.values()))

    def put(self, room, graph, dims=2):
        lists, params = _graph.lists_of(*_graph.stored(graph)), _graph.params_of(None, None, None)
        return self.into(room, lambda text: _text.put_run(text, lists, dims, params))

    def test_18_room(self):
        text = write_run(self.graph)
        for room in (0, 1, len(text) - 1):
            self.assertEqual(self.put(room, self.graph), ((18, 0), b"\xaa" * room))
        self.assertEqual(self.put(len(text), self.graph), (len(text), text))
        self.assertEqual(self.put(len(text) + 9, self.graph), (len(text), text + b"\xaa" * 9))

    def test_18_comes_last(self):
        for room in (0, 40, 400):
            self.assertEqual(self.put(room, self.graph, 8), ((1, 0), b"\xaa" * room))
            self.assertEqual(self.put(room, sparse.csr_matrix((65, 65)), 8), ((17, 5), b"\xaa" * room))
        self.graph.data[2] = np.nan
        self.assertEqual(self.put(0, self.graph), ((7, 2), b""))


class ReadingRefused(Texts):
    def changed(self, old, new):
        self.assertEqual(SAMPLE.count(old), 1)
        return SAMPLE.replace(old, new)

    def test_17_lines(self):
        for old, new, line in (
            (b"d=1", b"D=1", 1),
            (b"d=1", b"d=01", 1),
            (b"d=1", b"d=", 1),
            (b"d=1", b"d=18446744073709551616", 1),
            (b"rounds=1", b"rounds=401", 2),
            (b"rounds=1\n", b"", 2),
            (b"degree=1", b"degree=-1", 3),
            (b"degree=1", b"degree=1 ", 3),
            (b"3f1a36e2eb1c432d", b"3F1A36E2EB1C432D", 4),
            (b"3f1a36e2eb1c432d", b"3f1a36e2eb1c432", 4),
            (b"starts=0,1", b"starts=0,1,", 5),
            (b"starts=0,1", b"starts=" + b",".join([b"0"] * 66), 5),
            (b"columns=0", b"columns=4294967296", 6),
            (b"columns=0", b"columns=" + b",".join([b"0"] * 1025), 6),
            (b"values=3ff0000000000000", b"values=3ff0000000000000,3ff000000000000", 7),
            (b"values=3ff0000000000000", b"values=" + b",".join([b"3ff0000000000000"] * 1025), 7),
            (b"0000000000\n", b"0000000000", 7),
            (b"0000000000\n", b"0000000000\n\n", 8),
            (b"0000000000\n", b"0000000000\nmore", 8),
        ):
            with self.subTest(new=new[:40]):
                self.refused(17, line, read_run, self.changed(old, new))

    def test_17_other_bytes(self):
        self.refused(17, 1, read_run, b"")
        self.refused(17, 1, read_run, SAMPLE.replace(b"\n", b"\r\n"))
        self.refused(17, 1, read_run, b"\xef\xbb\xbf" + SAMPLE)
        self.refused(17, 2, read_run, b"d=1\n" * 8192)
        self.refused(17, 0, read_run, b"d=1\n" * 8192 + b"d")
        self.refused(17, 0, read_run, bytes(10**7))

    def test_17_the_first_line_counts(self):
        self.refused(17, 2, read_run, self.changed(b"rounds=1", b"rounds=401").replace(b"values", b"worths"))

    def test_numbers_are_not_tested(self):
        """What a run refuses is read all the same. The graph tells, by what the writer tests, in document 01's order."""
        text = text_of(0, 0, 0, 0.0, [1], [5, 5], [np.inf])
        self.has(read_run(text), 0, 0, 0, 0.0, [1], [5, 5], [np.inf])
        largest = b"d=18446744073709551615\nrounds=400\ndegree=18446744073709551615\nseed_std=fff0000000000000\nstarts=\ncolumns=4294967295\nvalues=\n"
        self.has(read_run(largest), 2**64 - 1, 400, 2**64 - 1, -np.inf, [], [2**32 - 1], [])
        self.assertTrue(np.isnan(read_run(SAMPLE.replace(b"3ff0", b"7ff8")).values[0]))

    def test_files_that_no_run_takes(self):
        words = [0, 0, 0, 0.0, [1], [5, 5], [np.inf]]
        right = ((1, 0, 0, 1), (2, 0, 4, [0, 2, 1]), (4, 0, 6, [np.inf] * 2), (5, 2, 4, [0, 2**63, 2]), (5, 2, 4, [0, 1, 2]))
        right += ((6, 0, 5, [1, 0]), (7, 0, 6, [1.0] * 2), (8, 0, 1, 1), (9, 0, 2, 1), (10, 0, 3, 1e-4))
        for number, place, word, put_right in right:
            file = read_run(text_of(*words))
            self.refused(number, place, lambda: file.graph)
            words[word] = put_right
        self.assertEqual(read_run(text_of(*words)).graph.toarray().tolist(), [[0.0, 1.0], [1.0, 0.0]])

    def test_a_file_made_by_hand(self):
        """Arrays of other kinds become the library's here too: no length is taken for another kind's."""
        file = RunFile(2, 5, 20, 1e-4, np.array([0, 1, 2]), np.array([1, 0], np.int16), np.array([1, 2], np.uint8))
        self.assertEqual(write_run(file.graph), text_of(2, 5, 20, 1e-4, [0, 1, 2], [1, 0], [1.0, 2.0]))


class Answers(Texts):
    counts = Counts(105, 2, 1, 0)

    def printed(self, seed, counts=counts):
        """What is printed, written a second time here; no number is NaN."""
        head = "answer=0\nn={}\npasses={}\nrefreshed={}\nzeroed={}\nisolated={}\n".format(len(seed), *counts)
        return (head + "".join(f"row={','.join(map(hex_of, row))}\n" for row in seed)).encode()

    def test_of_a_run(self):
        for dims in range(1, 8):
            answer = spectral_embedding(random_graph(64, 3, dims), dims, 1, 2)
            self.assertEqual(write_answer(answer), self.printed(*answer))

    def test_every_bit(self):
        seed = np.array(AWKWARD).reshape(6, 2)
        self.assertEqual(write_answer((seed, self.counts)), self.printed(seed))
        self.assertIn(b"row=0000000000000000,8000000000000000\n", write_answer((seed, self.counts)))

    def test_nan(self):
        """Whatever its bits."""
        seed = np.array([NAN, NAN | 1 << 63, 0x7FF0000000000001, 2**64 - 1, 0x7FF0000000000000], np.uint64).view(np.float64).reshape(5, 1)
        rows = write_answer((seed, self.counts)).split(b"\n")[6:-1]
        self.assertEqual(rows, [b"row=7ff8000000000000"] * 4 + [b"row=7ff0000000000000"])

    def test_stored_answers(self):
        """The oracle's seeds, from their bits."""
        for case in oracle_runs():
            counts = Counts(*(int(case.said[name]) for name in Counts._fields))
            rows = "".join(f"row={','.join(f'{number:016x}' for number in row)}\n" for row in case.seed.tolist())
            printed = write_answer((case.seed.view(np.float64), counts)).decode()
            self.assertEqual(printed, self.printed([], counts).decode().replace("n=0\n", f"n={len(case.seed)}\n") + rows)

    def test_refusals_are_printed(self):
        self.assertEqual(write_answer(Refusal(5, 2)), b"answer=5\nat=2\n")
        with self.assertRaises(Refusal) as caught:
            read_run(b"d=1\n")
        self.assertEqual(write_answer(caught.exception), b"answer=17\nat=2\n")
        self.assertEqual(write_answer(Refusal(2**64 - 1, 2**64 - 1)), b"answer=18446744073709551615\nat=18446744073709551615\n")

    def test_the_largest_answer(self):
        seed, counts = np.full((64, 7), -LARGEST), Counts(*[2**64 - 1] * 4)
        text = write_answer((seed, counts))
        self.assertEqual(text, self.printed(seed, counts))
        self.assertLess(len(text), _text.ANSWER_BYTES)

    def test_kinds_of_seeds(self):
        seed = np.arange(12.0).reshape(4, 3)
        for same in (np.asfortranarray(seed), seed.astype(">f8"), np.repeat(seed, 2, axis=0)[::2], seed.tolist()):
            self.assertEqual(write_answer((same, tuple(self.counts))), self.printed(seed))
        self.assertEqual(write_answer(Embedding(seed, self.counts, np.zeros((1, 12)))), self.printed(seed))

    def test_what_is_no_answer(self):
        seed = np.zeros((2, 2))
        for wrong in (seed, None, (np.zeros(3), self.counts), (np.zeros((2, 2), np.float32), self.counts), (seed, (1, 2, 3)), (seed, (1, 2, 3, 4.0))):
            with self.assertRaises((TypeError, ValueError)) as caught:
                write_answer(wrong)
            self.assertNotIsInstance(caught.exception, Refusal)
        for wrong in ((seed, (1, 2, 3, -1)), (seed, (2**64, 0, 0, 0)), Refusal(-1, 0), Refusal(1, 2**64), Refusal(0, 0)):
            with self.assertRaisesRegex(ValueError, "number"):
                write_answer(wrong)

    def of_shape(self, rows, dims):
        return write_answer((np.zeros((rows, dims)), self.counts))

    def test_refused(self):
        for dims in (0, 8):
            self.refused(1, 0, self.of_shape, 2, dims)
        self.refused(2, 0, self.of_shape, 0, 2)
        self.refused(17, 0, self.of_shape, 65, 2)

    def put(self, room, dims=2, rows=3, numbers=6, number=0):
        words = (_library.Verdict(number, 4), dims, rows, _library.Counts(*self.counts), np.zeros(numbers))
        return self.into(room, lambda text: _text.put_answer(text, *words))

    def test_order(self):
        """With everything wrong, the room too: 1, 2 or 17, 11, 18. A refusal is printed whatever stands beside it."""
        for words, number, place in (((0, 0, 0), 1, 0), ((7, 0, 0), 2, 0), ((7, 65, 0), 17, 0), ((7, 64, 447), 11, 9), ((7, 64, 448), 18, 0)):
            self.assertEqual(self.put(5, *words), ((number, place), b"\xaa" * 5))
        self.assertEqual(self.put(15, 0, 0, 0, 12), (15, b"answer=12\nat=4\n"))

    def test_18_room(self):
        for number in (0, 12):
            length, text = self.put(_text.ANSWER_BYTES, number=number)
            for room in (0, 1, length - 1):
                self.assertEqual(self.put(room, number=number), ((18, 0), b"\xaa" * room))
            self.assertEqual(self.put(length, number=number), (length, text[:length]))
            self.assertEqual(self.put(length + 9, number=number), (length, text[:length] + b"\xaa" * 9))

    def test_more_numbers_than_rows(self):
        """Those behind the last row are not looked at."""
        self.assertEqual(self.put(200, numbers=9), self.put(200))


if __name__ == "__main__":
    unittest.main()
