"""Matrix Market files: which graphs they are read as, beside SciPy and beside a second reading of the rules, and each refusal with its line."""
import io
import mmap
import pathlib
import tempfile
import threading
import unittest

import numpy as np
from scipy import io as scipy_io
from scipy import sparse

from threshcinch import Refusal, _refusal, graph_digest, read_matrix_market, spectral_embedding
from threshcinch._look import warnings_about

from .common import csr

BANNER = b"%%MatrixMarket matrix coordinate pattern symmetric\n"
# three rows: 0 and 1 linked, 2 with itself alone
SMALL = BANNER + b"3 3 2\n2 1\n3 3\n"


class Fault(Exception):
    """A file that is none: the first line at fault."""


def _numbers(line):
    """The numbers of a line, or None where it holds something else."""
    words = line.replace(b"\t", b" ").split(b" ")
    words = [word for word in words if word]
    if not all(word.isdigit() and int(word) < 2**64 for word in words):
        return None
    return [int(word) for word in words]


def _lines(text):
    """Each line with its number, without its end; one that is too long, or has a carriage return, is a fault."""
    lines = text.split(b"\n")
    last = len(lines) - 1
    for number, line in enumerate(lines, 1):
        if number - 1 == last and not line:
            return
        if number - 1 < last and line.endswith(b"\r"):
            line = line[:-1]
        if b"\r" in line or len(line) > 1024:
            raise Fault(number)
        yield number, line


def second_reading(text):
    """The rules once more: rows, and the entries as a set."""
    size, entries, number = None, set(), 0
    for number, line in _lines(text):
        numbers = _numbers(line)
        if number == 1:
            words = line.replace(b"\t", b" ").split(b" ")
            first, words = words[0], [word.lower() for word in words[1:] if word]
            if first != b"%%MatrixMarket" or words != [b"matrix", b"coordinate", b"pattern", b"symmetric"]:
                raise Fault(1)
        elif numbers == [] or (size is None and line.startswith(b"%")):
            continue
        elif numbers is None:
            raise Fault(number)
        elif size is None:
            if len(numbers) != 3 or numbers[0] != numbers[1] or 2 * numbers[2] > numbers[0] * (numbers[0] + 1):
                raise Fault(number)
            size = numbers[1:]
        else:
            if len(numbers) != 2 or not 1 <= numbers[1] <= numbers[0] <= size[0] or tuple(numbers) in entries or len(entries) == size[1]:
                raise Fault(number)
            entries.add(tuple(numbers))
    if size is None or len(entries) != size[1]:
        raise Fault(number + 1)
    return size[0], entries


def graph_of(rows, entries):
    """The graph that these entries are, by way of a dense table."""
    table = np.zeros((rows, rows), bool)
    for row, column in entries:
        table[row - 1, column - 1] = table[column - 1, row - 1] = True
    return csr(np.append(0, table.sum(axis=1).cumsum()), np.nonzero(table)[1], np.ones(table.sum()))


def text_of(rows, entries, end=b"\n"):
    return BANNER + end.join([b"%d %d %d" % (rows, rows, len(entries)), *(b"%d %d" % entry for entry in entries), b""])


def some_entries(chance, rows):
    """A third of the lower triangle, by row."""
    return [(row, column) for row in range(1, rows + 1) for column in range(1, row + 1) if chance.random() < 1 / 3]


class Market(unittest.TestCase):
    def same(self, one, other):
        """Every entry as it stands, and the kinds of the arrays."""
        self.assertEqual((type(one), one.shape), (type(other), other.shape))
        for found, expected in ((one.indptr, other.indptr), (one.indices, other.indices), (one.data.view(np.uint64), other.data.view(np.uint64))):
            self.assertEqual(found.dtype, expected.dtype)
            np.testing.assert_array_equal(found, expected)

    def refused(self, number, place, text):
        with self.assertRaises(Refusal) as caught:
            read_matrix_market(text)
        self.assertEqual((caught.exception.number, caught.exception.place), (number, place), text[-60:])
        self.assertEqual(caught.exception.words, _refusal.WORDS[number])


class Graphs(Market):
    small = csr([0, 1, 2, 3], [1, 0, 2], [1.0] * 3)

    def test_small(self):
        graph = read_matrix_market(SMALL)
        self.assertEqual((type(graph), graph.shape, graph.dtype), (sparse.csr_matrix, (3, 3), np.float64))
        self.assertEqual((graph.indptr.dtype, graph.indices.dtype), (np.int32, np.int32))
        self.same(graph, self.small)
        graph.data[0] = 7.0  # its own
        self.same(read_matrix_market(SMALL), self.small)

    def test_forms(self):
        for text in (
            BANNER + b"3 3 2\n3 3\n2 1\n",
            BANNER + b"3 3 2\n2 1\n3 3",
            SMALL.replace(b"\n", b"\r\n"),
            SMALL.replace(b"matrix coordinate pattern symmetric", b"\tMATRIX  Coordinate\tpAttERN symmetriC \t"),
            BANNER + b"%\n% any byte: \0\x80\xff\n\n \t\r\n\t3 3\t 2 \n\n 02 1\n3 00003 \n\n \t",
        ):
            self.same(read_matrix_market(text), self.small)

    def test_no_entries(self):
        for rows in (1, 5):
            graph = read_matrix_market(b"%s%d %d 0\n" % (BANNER, rows, rows))
            self.same(graph, csr([0] * (rows + 1), [], []))
            self.assertEqual(spectral_embedding(graph)[0].shape, (rows, 2))

    def test_no_more_memory_than_it_needs(self):
        """A diagonal entry is placed once, and room was taken for it twice."""
        graph = read_matrix_market(text_of(50, [(row, row) for row in range(1, 51)]))
        self.assertEqual((graph.nnz, graph.data.size, graph.indices.size), (50, 50, 50))
        self.assertTrue(graph.data.base is None or graph.data.base.size == 50)

    def test_what_is_promised_of_it(self):
        """Rows that rise, no column twice, symmetric, and nothing that the library refuses."""
        chance = np.random.default_rng(5)
        entries = some_entries(chance, 60)
        chance.shuffle(entries)
        graph = read_matrix_market(text_of(60, [tuple(map(int, entry)) for entry in entries]))
        self.assertTrue(graph.has_canonical_format and (graph != graph.T).nnz == 0)
        self.assertEqual(warnings_about(graph), [])
        self.assertEqual(len(graph_digest(graph)), 64)

    def test_kinds_of_files(self):
        with tempfile.TemporaryDirectory() as folder:
            path = pathlib.Path(folder, "graph.mtx")
            path.write_bytes(SMALL)
            with open(path, "rb") as file, mmap.mmap(file.fileno(), 0, access=mmap.ACCESS_READ) as mapped:
                for given in (str(path), path, SMALL, bytearray(SMALL), memoryview(b"x" + SMALL)[1:], mapped, np.frombuffer(SMALL, np.uint8)):
                    self.same(read_matrix_market(given), self.small)
            with self.assertRaises(FileNotFoundError):
                read_matrix_market(path.with_name("none.mtx"))
            with self.assertRaises(IsADirectoryError):
                read_matrix_market(folder)
        for wrong in (None, 3, self.small, io.BytesIO(SMALL)):
            with self.assertRaises(TypeError):
                read_matrix_market(wrong)

    def test_orders(self):
        """By row, by column, falling, and in no order at all."""
        chance = np.random.default_rng(6)
        for rows in range(1, 50):
            entries = some_entries(chance, rows)
            expected = graph_of(rows, entries)
            mixed = [entries[place] for place in chance.permutation(len(entries))]
            for order in (entries, sorted(entries, key=lambda entry: entry[::-1]), entries[::-1], mixed):
                for end in (b"\n", b"\r\n", b"\n\n", b" \t\n"):
                    self.same(read_matrix_market(text_of(rows, order, end)), expected)

    def test_a_thread_with_a_stack_of_a_mebibyte(self):
        """It suffices, in whatever order the entries stand."""
        found, before = [], threading.stack_size(2**20)
        try:
            thread = threading.Thread(target=lambda: found.append(read_matrix_market(BANNER + b"3 3 2\n3 3\n2 1\n")))
            thread.start()
            thread.join()
        finally:
            threading.stack_size(before)
        self.same(found[0], self.small)


class BesideSciPy(Market):
    def written(self, graph, **words):
        file = io.BytesIO()
        scipy_io.mmwrite(file, graph, field="pattern", symmetry="symmetric", **words)
        return file.getvalue()

    def random(self, chance):
        rows = int(chance.integers(1, 80))
        return graph_of(rows, [(row, column) for row, column in some_entries(chance, rows) if chance.random() < chance.random()])

    def test_what_mmwrite_writes(self):
        chance = np.random.default_rng(7)
        for number in range(200):
            graph = self.random(chance)
            self.same(read_matrix_market(self.written(graph, comment=" a comment\n and another" if number % 2 else "")), graph)

    def test_what_mmread_reads(self):
        chance = np.random.default_rng(8)
        for _ in range(200):
            text = self.written(self.random(chance))
            other = sparse.csr_matrix(scipy_io.mmread(io.BytesIO(text)), dtype=np.float64)
            other.sort_indices()
            self.same(read_matrix_market(text), other)


class BesideASecondReading(Market):
    def compare(self, text):
        try:
            rows, entries = second_reading(text)
        except Fault as fault:
            self.refused(19, fault.args[0], text)
            return 0
        if not rows:
            self.refused(2, 0, text)
        elif rows > 1048576:
            self.refused(3, 0, text)
        else:
            if rows < 100:  # a table of more would be large
                self.same(read_matrix_market(text), graph_of(rows, entries))
            return 1
        return 0

    def test_every_byte(self):
        """Each byte of a file taken out, and replaced by others."""
        text = BANNER + b"% a\n\n4 4 3\r\n2 1\n\n4 4\n3 1"
        accepted = self.compare(text)
        for place in range(len(text)):
            for new in (b"", b"\n", b"\r", b" ", b"\t", b"0", b"1", b"4", b"%", b"x", b"\0", b"\xff", b"1 ", b"\r\n"):
                accepted += self.compare(text[:place] + new + text[place + 1 :])
        self.assertGreater(accepted, 100)

    def test_damaged_files(self):
        chance, accepted = np.random.default_rng(9), 0
        for _ in range(3000):
            rows = int(chance.integers(0, 12))
            entries = some_entries(chance, rows)
            text = bytearray(text_of(rows, [entries[place] for place in chance.permutation(len(entries))]))
            for _ in range(int(chance.integers(0, 3))):
                place = int(chance.integers(len(BANNER) - 3, len(text) + 1))
                text[place : place + int(chance.integers(0, 3))] = bytes(chance.choice(list(b"\n\r \t%019"), int(chance.integers(0, 3))).tolist())
            accepted += self.compare(bytes(text))
        self.assertGreater(accepted, 500)

    def test_cut_files(self):
        text = BANNER + b"% a\r\n\n4 4 3\r\n2 1\n\n4 4\n3 1\n"
        for length in range(len(text) + 1):
            self.compare(text[:length])

    def test_long_lines(self):
        lines = [BANNER[:-1], b"%", b"3 3 2", b"2 1", b"", b"3 3"]
        for end in (b"\n", b"\r\n"):
            for line in range(len(lines)):
                for length in (1023, 1024, 1025):
                    text = end.join([*lines[:line], lines[line].ljust(length), *lines[line + 1 :], b""])
                    self.assertEqual(self.compare(text), length <= 1024)
                    self.compare(text[: -len(end)])


class Refused(Market):
    def test_19(self):
        for line, text in (
            (1, b""),
            (1, b"\n" + SMALL),
            (1, b" " + SMALL),
            (1, b"\xef\xbb\xbf" + SMALL),
            (1, SMALL.replace(b"%%M", b"%%m")),
            (1, SMALL.replace(b"pattern", b"real")),
            (1, SMALL.replace(b"symmetric", b"general")),
            (2, BANNER),
            (2, BANNER + b"% a carriage return\r"),
            (2, BANNER + b"2 3 1\n1 1\n"),
            (2, BANNER + b"0 0 3\n"),
            (2, BANNER + b"3 3 7\n"),
            (2, BANNER + b"18446744073709551616 18446744073709551616 0\n"),
            (3, BANNER + b"3 3 1\n1 2\n"),
            (3, BANNER + b"3 3 1\n% too late\n1 1\n"),
            (3, BANNER + b"3 3 1\n"),
            (4, BANNER + b"3 3 1\n1 1\n2 2\n"),
            (4, BANNER + b"3 3 2\n1 1\n1 1\n"),
            (4, BANNER + b"3 3 2\n1 1\n4 4\n"),
        ):
            self.refused(19, line, text)

    def test_2_and_3(self):
        self.refused(2, 0, BANNER + b"0 0 0\n")
        self.refused(3, 0, BANNER + b"1048577 1048577 0\n")
        self.refused(3, 0, BANNER + b"18446744073709551615 18446744073709551615 0\n")
        self.assertEqual(read_matrix_market(BANNER + b"1048576 1048576 0\n").shape, (1048576, 1048576))

    def test_19_comes_first(self):
        """Also where the lines up to the size line are refused by another number."""
        self.refused(19, 3, BANNER + b"0 0 0\n1 1\n")
        self.refused(19, 4, BANNER + b"1048577 1048577 2\n5 4\n5 4\n")
        self.refused(19, 3, BANNER + b"1048576 1048576 67108865\n")

    def test_a_size_line_that_says_much(self):
        """It is told that an entry is missing, and no memory is filled for it."""
        self.refused(19, 4, BANNER + b"1048576 1048576 67108864\n1 1\n")

    def test_repeats(self):
        """However far apart, and in whatever order: the later line is named."""
        chance = np.random.default_rng(10)
        whole = [(row, column) for row in range(1, 301) for column in range(1, row + 1)]
        for order in (whole, whole[::-1], [whole[place] for place in chance.permutation(len(whole))]):
            for sooner, later in ((0, len(whole) - 1), (0, 1), (5, 32766), (5, 32767), (32767, 40000), (32766, 32767)):
                wrong = list(order)
                wrong[later] = wrong[sooner]
                self.refused(19, later + 3, text_of(300, wrong))
            self.assertEqual(read_matrix_market(text_of(300, order)).nnz, 90000)


if __name__ == "__main__":
    unittest.main()
