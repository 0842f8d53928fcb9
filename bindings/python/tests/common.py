"""What several tests need: graphs, bits, a progress that watches."""
import pathlib
import unittest
from typing import NamedTuple

import numpy as np
from scipy import sparse

from threshcinch import Embedding, Refusal, _refusal, spectral_embedding

HERE = pathlib.Path(__file__).resolve().parent
PACKAGE = HERE.parent
ROOT = HERE.parents[2]
VECTORS = ROOT / "oracle" / "vectors"
NAN = 0x7FF8000000000000


def csr(starts, columns, values):
    """A matrix of just these arrays; SciPy's constructor keeps their order."""
    rows = len(starts) - 1
    arrays = (np.array(values, np.float64), np.array(columns, np.int32), np.array(starts, np.int32))
    return sparse.csr_matrix(arrays, shape=(rows, rows))


# The least number whose root is above 1e-12: two steps above 1e-24, whose root is 1e-12 itself.
JUST_ABOVE = float.fromhex("0x1.357c299a88ea9p-80")

# What a row may hold, and whether that isolates it.
ROW_KINDS = (
    ((), True),
    ((1.0, -1.0), True),
    ((-0.0, -0.0), True),
    ((5e-324,), True),
    ((1e-24,), True),
    ((JUST_ABOVE,), False),
    ((1.0,), False),
    ((1e24,), False),
    ((1e308, 1e308), False),  # a degree of plus infinity, as is its root
    ((-1.0,), True),  # the root is NaN
    ((-5e-324,), True),
    ((-1e308, -1e308), True),  # a degree of minus infinity
)


def graph_of_kinds(rows):
    """Rows that hold one kind after the other, in the columns behind their own."""
    starts, columns, values = [0], [], []
    for row in range(rows):
        held, _ = ROW_KINDS[row % len(ROW_KINDS)]
        columns += [(row + step) % rows for step in range(1, len(held) + 1)]
        values += held
        starts.append(len(values))
    return csr(starts, columns, values)


# A row of each kind: eight are isolated, and one of them has no entries.
KINDS = graph_of_kinds(12)


def bits(seed):
    """The numbers' bits, every NaN as the oracle writes it."""
    found = np.ascontiguousarray(seed).view(np.uint64).copy()
    found[np.isnan(seed)] = NAN
    return found


class OracleRun(NamedTuple):
    """A stored run: its name, what the oracle says of it, spectral_embedding's words, and the bits of the seed that the Rust gave."""

    label: str
    said: dict
    graph: sparse.csr_matrix
    words: dict
    seed: np.ndarray


def _floats(text):
    return np.array([int(word, 16) for word in text.split(",") if word], np.uint64).view(np.float64)


def _wholes(text):
    return [int(word) for word in text.split(",") if word]


def oracle_runs():
    for block in (VECTORS / "runs.txt").read_text().strip().split("\n\n"):
        head, *lines = block.split("\n")
        said = dict(word.split("=") for word in head.split()[2:])
        asked = dict(line.split("=") for line in lines if not line.startswith("row="))
        rows = [[int(word, 16) for word in line[4:].split(",")] for line in lines if line.startswith("row=")]
        graph = csr(_wholes(asked["starts"]), _wholes(asked["columns"]), _floats(asked["values"]))
        words = {"dims": int(asked["d"]), "rounds": int(asked["rounds"]), "degree": int(asked["degree"]), "seed_std": _floats(asked["seed_std"])[0]}
        yield OracleRun(head.split()[1], said, graph, words, np.array(rows, np.uint64))


def random_graph(rows, neighbours, number):
    """A symmetric graph with positive weights."""
    chance = np.random.default_rng(number)
    left = np.repeat(np.arange(rows), neighbours)
    right = chance.integers(0, rows, left.size)
    weights = chance.random(left.size) + 0.1
    half = sparse.coo_matrix((weights, (left, right)), shape=(rows, rows)).tocsr()
    return (half + half.T).tocsr()


def splitmix(index):
    """Document 01's hash, before it becomes a float."""
    low = 2**64 - 1
    z = (index + 0x9E3779B97F4A7C15) & low
    z = ((z ^ z >> 30) * 0xBF58476D1CE4E5B9) & low
    z = ((z ^ z >> 27) * 0x94D049BB133111EB) & low
    return z ^ z >> 31


def ring(rows, number):
    """The oracle's graph `big ROWS NUMBER`, where NUMBER is no multiple of 4."""
    columns, values = [], []
    for i in range(rows):
        for j in ((i + turn * s) % rows for s in (1, 2, 3, 4) for turn in (1, -1)):
            columns.append(j)
            values.append((splitmix(number * 2**40 + min(i, j) * 2**20 + max(i, j)) >> 11) / 2**53)
    return csr(range(0, 8 * rows + 1, 8), columns, values)


def digest(seed):
    """FNV-1a over the numbers' bytes, as the oracle's `big` prints it."""
    found = 0xCBF29CE484222325
    for byte in bits(seed).tobytes():
        found = ((found ^ byte) * 0x100000001B3) & (2**64 - 1)
    return f"{found:016x}"


def ended(run):
    """What spectral_embedding would answer for a run that has ended."""
    return Embedding(run.seed, run.counts, run.ritz_record)


class Watch:
    """A progress that keeps what it was told."""

    def __init__(self):
        self.told = []

    def __call__(self, accepted, owed):
        self.told.append((accepted, owed))


class Stop(Exception):
    pass


class Case(unittest.TestCase):
    def refused(self, number, place, graph, **words):
        for progress in (None, lambda accepted, owed: None):
            with self.assertRaises(Refusal) as caught:
                spectral_embedding(graph, progress=progress, **words)
            self.assertEqual((caught.exception.number, caught.exception.place), (number, place))
            self.assertEqual(caught.exception.words, _refusal.WORDS[number])

    def same(self, one, other):
        """Two Embeddings: every bit of seed and Ritz record, and the counts."""
        np.testing.assert_array_equal(bits(one.seed), bits(other.seed))
        np.testing.assert_array_equal(bits(one.ritz_record), bits(other.ritz_record))
        self.assertEqual(one.counts, other.counts)
