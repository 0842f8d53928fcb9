"""The isolated rows: which they are, and from when on a run has counted them."""
import math

import numpy as np

from threshcinch import Counts, Refusal, Run, spectral_embedding

from .common import JUST_ABOVE, KINDS, ROW_KINDS, Case, csr, ended, graph_of_kinds


class Isolated(Case):
    def test_each_kind(self):
        """One row alone. The inverse weight 1e-12 alone does not tell: a root of 1e12 has it too."""
        for values, isolated in ROW_KINDS:
            with self.subTest(values=values):
                counts = spectral_embedding(csr([0, len(values)], [0] * len(values), values), dims=1, rounds=1, degree=1).counts
                self.assertEqual(counts.isolated, int(isolated))

    def test_the_roots_next_to_the_floor(self):
        self.assertEqual((math.sqrt(1e-24), math.sqrt(np.nextafter(1e-24, 1))), (1e-12, 1e-12))
        self.assertEqual(np.nextafter(np.nextafter(1e-24, 1), 1), JUST_ABOVE)
        self.assertGreater(math.sqrt(JUST_ABOVE), 1e-12)

    def test_rows_of_all_kinds(self):
        for rows in (12, 13, 100):
            counts = spectral_embedding(graph_of_kinds(rows), dims=2, rounds=1, degree=1).counts
            self.assertEqual(counts.isolated, sum(ROW_KINDS[row % 12][1] for row in range(rows)))
        self.assertEqual(spectral_embedding(KINDS, dims=1).counts.isolated, 8)

    def test_set_as_the_degrees_close(self):
        """None before, and from then on to the end the one call's."""
        graph = graph_of_kinds(8196)
        words = {"dims": 1, "rounds": 1, "degree": 1}
        expected = spectral_embedding(graph, **words)
        self.assertEqual(expected.counts.isolated, 683 * 8)
        run = Run.open(graph, **words)
        self.assertEqual(run.counts, Counts(0, 0, 0, 0))
        for number in (1, 2, 0):
            run.chunk(number)
            self.assertEqual(run.counts, Counts(0, 0, 0, 0))
        run.close()
        self.assertEqual(run.counts, Counts(0, 0, 0, expected.counts.isolated))
        while run.is_open:
            for number in run.chunks_left():
                run.chunk(number)
            run.close()
            self.assertEqual(run.counts.isolated, expected.counts.isolated)
        self.same(ended(run), expected)

    def test_closing_sets_it_whatever_it_was(self):
        for before in (1, 5, 8, 12):
            run = Run.open(KINDS, dims=1, rounds=1, degree=1)
            run._at[0].counts.isolated = before
            run.chunk(0)
            self.assertEqual(run.counts.isolated, before)
            run.close()
            self.assertEqual(run.counts.isolated, 8)
        run = Run.open(KINDS, dims=1, rounds=1, degree=1)
        run._at[0].counts.isolated = 13
        with self.assertRaises(Refusal) as caught:
            run.chunk(0)
        self.assertEqual(caught.exception.number, 16)

    def test_no_later_closing_changes_it(self):
        run = Run.open(KINDS, dims=1, rounds=1, degree=1)
        run.chunk(0)
        run.close()
        run._at[0].counts.isolated = 3
        run.drive()
        self.assertEqual(run.counts.isolated, 3)

    def test_threads_and_progress(self):
        graph = graph_of_kinds(8196)
        words = {"dims": 1, "rounds": 1, "degree": 1}
        expected = spectral_embedding(graph, **words)
        self.same(spectral_embedding(graph, threads=3, **words), expected)
        self.same(spectral_embedding(graph, progress=lambda accepted, owed: None, **words), expected)
