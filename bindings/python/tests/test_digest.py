"""Digests: fixed values, and what changes them."""
import hashlib
import struct
import unittest

import numpy as np

from threshcinch import Refusal, Run, graph_digest, seed_digest

from .common import csr, random_graph


class GraphDigests(unittest.TestCase):
    def test_fixed(self):
        """Stored values: a change of the definition is a change that others must be told of."""
        graph = csr([0, 2, 3, 4], [1, 2, 0, 0], [1.0, -0.0, 1.0, 0.5])
        self.assertEqual(graph_digest(graph), "3fb51eee8421a630e14172dda96b9c7cbec3cddf6edf29b1aeed4be775a182cb")

    def test_by_definition(self):
        graph = csr([0, 2, 3, 4], [1, 2, 0, 0], [1.0, -0.0, 1.0, 0.5])
        data = b"threshcinch graph 1\n" + struct.pack("<QQ4Q4I4d", 3, 4, 0, 2, 3, 4, 1, 2, 0, 0, 1.0, -0.0, 1.0, 0.5)
        self.assertEqual(graph_digest(graph), hashlib.sha256(data).hexdigest())
        self.assertEqual(Run.open(graph).graph_digest, graph_digest(graph))

    def test_the_empty_graph(self):
        data = b"threshcinch graph 1\n" + struct.pack("<QQQQ", 1, 0, 0, 0)
        self.assertEqual(graph_digest(csr([0, 0], [], [])), hashlib.sha256(data).hexdigest())

    def test_what_counts(self):
        """The order of entries, a zero's sign; not the kinds of arrays that SciPy has them in."""
        one = csr([0, 2, 3, 4], [1, 2, 0, 0], [1.0, -0.0, 1.0, 0.5])
        others = [
            csr([0, 2, 3, 4], [2, 1, 0, 0], [-0.0, 1.0, 1.0, 0.5]),
            csr([0, 2, 3, 4], [1, 2, 0, 0], [1.0, 0.0, 1.0, 0.5]),
            csr([0, 1, 3, 4], [1, 2, 0, 0], [1.0, -0.0, 1.0, 0.5]),
            csr([0, 2, 3, 4, 4], [1, 2, 0, 0], [1.0, -0.0, 1.0, 0.5]),
        ]
        self.assertEqual(len({graph_digest(graph) for graph in [one] + others}), 5)
        same = one.copy()
        same.indices, same.indptr, same.data = one.indices.astype(np.int64), one.indptr.astype(">i8"), one.data.astype(np.float32)
        self.assertEqual(graph_digest(same), graph_digest(one))

    def test_refused(self):
        with self.assertRaises(Refusal) as caught:
            graph_digest(csr([0, 1, 2], [0, 2], [1.0, 1.0]))
        self.assertEqual(caught.exception.number, 6)
        with self.assertRaisesRegex(TypeError, "tocsr"):
            graph_digest(random_graph(5, 2, 1).tocsc())


class SeedDigests(unittest.TestCase):
    seed = np.array([[1.0, -0.0], [np.nan, 0.5], [5e-324, -2.0]])

    def test_fixed(self):
        self.assertEqual(seed_digest(self.seed), "b5b7bfc9389532e5c9d0bd72cc2e593d200f88f44ff2c507f672f366e48477a1")

    def test_by_definition(self):
        numbers = (0x3FF0000000000000, 1 << 63, 0x7FF8000000000000, 0x3FE0000000000000, 1, 0xC000000000000000)
        data = b"threshcinch seed 1\n" + struct.pack("<QQ6Q", 2, 3, *numbers)
        self.assertEqual(seed_digest(self.seed), hashlib.sha256(data).hexdigest())

    def test_what_counts(self):
        """Neither which NaN it is nor how the numbers lie in memory; but each bit, and the shape."""
        other_nan = self.seed.copy()
        other_nan.view(np.uint64)[1, 0] = 0xFFF0000000000001
        for same in (other_nan, np.asfortranarray(self.seed), self.seed.astype(">f8"), np.repeat(self.seed, 2, axis=0)[::2]):
            self.assertEqual(seed_digest(same), seed_digest(self.seed))
        zero, last = self.seed.copy(), self.seed.copy()
        zero[0, 1] = 0.0
        last.view(np.uint64)[2, 1] ^= np.uint64(1)
        for other in (zero, last, self.seed.reshape(2, 3), self.seed.reshape(6, 1)):
            self.assertNotEqual(seed_digest(other), seed_digest(self.seed))

    def test_the_argument_stays(self):
        before = self.seed.copy()
        before.view(np.uint64)[1, 0] = 0xFFF8000000000001
        bits = before.view(np.uint64).copy()
        seed_digest(before)
        np.testing.assert_array_equal(before.view(np.uint64), bits)

    def test_no_seed(self):
        for wrong in (np.zeros(3), np.zeros((2, 2), np.float32), np.zeros((2, 2), int), np.zeros((1, 1, 1)), None):
            with self.assertRaisesRegex(TypeError, "float64"):
                seed_digest(wrong)
