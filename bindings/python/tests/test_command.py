"""The command: what it writes, prints, warns of and refuses."""
import contextlib
import io
import os
import pathlib
import pickle
import shutil
import signal
import subprocess
import sys
import tempfile
import unittest
import warnings
from unittest import mock

import numpy as np
from scipy import sparse

import threshcinch
from threshcinch import Run, _command, graph_digest, read_run, seed_digest, spectral_embedding, write_run
from threshcinch._bar import bar
from threshcinch._look import warnings_about
from threshcinch._refusal import WORDS

from .common import HERE, KINDS, PACKAGE, bits, csr, random_graph


class Files(unittest.TestCase):
    """A folder, and the command run within this process."""

    output_file = io.BytesIO

    def setUp(self):
        folder = tempfile.TemporaryDirectory()
        self.addCleanup(folder.cleanup)
        self.folder = pathlib.Path(folder.name)
        self.output = self.path("seed.npy")
        self.graph = random_graph(60, 4, 1)

    def path(self, name):
        return str(self.folder / name)

    def stored(self, graph, name="graph.npz"):
        sparse.save_npz(self.path(name), graph)
        return self.path(name)

    def command(self, *words):
        """Status, standard output and standard error."""
        out, err = io.TextIOWrapper(self.output_file(), "utf-8"), io.StringIO()
        with contextlib.redirect_stdout(out), contextlib.redirect_stderr(err), warnings.catch_warnings():
            # NumPy leaves a refused file to be closed by Python, which unittest has Python tell
            warnings.simplefilter("ignore", ResourceWarning)
            try:
                status = _command.main([str(word) for word in words])
            except SystemExit as ended:
                status = ended.code
        out.flush()
        return status, out.buffer.getvalue().decode(), err.getvalue()

    def seed(self, graph, *words):
        return self.command("seed", self.stored(graph), "-o", self.output, *words)

    def refused(self, said, *words):
        """Status 1, nothing on standard output, and one line of words."""
        status, out, err = self.command(*words)
        self.assertEqual((status, out), (1, ""))
        self.assertRegex(err, rf"\Athreshcinch: [^\n]*{said}[^\n]*\n\Z")


class Seeds(Files):
    def test_seed_and_digests(self):
        status, out, err = self.seed(self.graph)
        seed, counts = spectral_embedding(self.graph)
        np.testing.assert_array_equal(bits(np.load(self.output)), bits(seed))
        digests = f"graph {graph_digest(self.graph)} {self.path('graph.npz')}\nseed {seed_digest(seed)} {self.output}\n"
        words = (
            f"60 rows, {self.graph.nnz} entries; 2 numbers a row, 5 rounds of degree 20, seed_std 0.0001\n"
            f"105 operator passes, {counts.refreshed} columns refreshed, 0 columns zeroed, 0 isolated rows\n"
        )
        self.assertEqual((status, out, err), (0, words + digests, ""))
        self.assertEqual(self.command("digest", self.path("graph.npz"), self.output), (0, digests, ""))

    def test_options(self):
        words = ("--dims", 3, "--rounds", 2, "--degree", 7, "--seed-std", 0.5, "--threads", 3)
        status, out, _ = self.seed(self.graph, *words)
        seed, _ = spectral_embedding(self.graph, 3, 2, 7, 0.5)
        self.assertEqual(status, 0)
        self.assertIn("3 numbers a row, 2 rounds of degree 7, seed_std 0.5\n", out)
        np.testing.assert_array_equal(bits(np.load(self.output)), bits(seed))

    def test_record(self):
        """The Ritz record in a file of its own; what is printed is the same with it and without."""
        words = ("--dims", 3, "--rounds", 4)
        printed = self.seed(self.graph, *words)
        self.assertEqual(self.seed(self.graph, *words, "--record", self.path("record.npy")), printed)
        record = np.load(self.path("record.npy"))
        self.assertEqual(record.shape, (4, 12))
        np.testing.assert_array_equal(bits(record), bits(spectral_embedding(self.graph, 3, 4).ritz_record))
        self.assertEqual(sorted(os.listdir(self.folder)), ["graph.npz", "record.npy", "seed.npy"])

    def test_entries_are_taken_as_they_stand(self):
        graph = csr([0, 2, 4, 6], [2, 1, 2, 0, 1, 0], [1.0, 2.0, 3.0, 2.0, 3.0, 1.0])
        _, out, _ = self.seed(graph)
        self.assertIn(graph_digest(graph), out)
        graph.sort_indices()
        self.assertNotIn(graph_digest(graph), out)

    def test_other_formats_are_converted_with_a_word(self):
        for other in (self.graph.tocoo(), self.graph.tocsc()):
            status, out, err = self.seed(other)
            self.assertEqual(status, 0)
            self.assertIn(graph_digest(other.tocsr()), out)
            self.assertEqual(err.count("\n"), 1)
            self.assertIn(f"stored as {other.format}", err)
            _, printed, said = self.command("digest", self.path("graph.npz"))
            self.assertEqual((printed.split()[1], said), (graph_digest(other.tocsr()), err))

    def test_the_output_is_replaced_whole(self):
        pathlib.Path(self.output).write_bytes(b"older")
        with mock.patch.object(_command.np, "save", side_effect=OSError("the disk is full")):
            self.stored(self.graph)
            self.refused("the disk is full", "seed", self.path("graph.npz"), "-o", self.output)
        self.assertEqual(pathlib.Path(self.output).read_bytes(), b"older")
        self.assertEqual(sorted(os.listdir(self.folder)), ["graph.npz", "seed.npy"])


class Warnings(Files):
    """On standard error, and never in the numbers."""

    def warned(self, graph, *said):
        status, _, err = self.seed(graph)
        self.assertEqual((status, err.count("\n")), (0, len(said)), err)
        for words in said:
            self.assertIn(f"threshcinch: warning: {words}", err)
        np.testing.assert_array_equal(bits(np.load(self.output)), bits(spectral_embedding(graph)[0]))

    def test_none(self):
        self.warned(self.graph)

    def test_components(self):
        self.warned(sparse.block_diag([self.graph, random_graph(50, 4, 2), random_graph(40, 4, 3)], "csr"), "the graph has 3 components")

    def test_a_link_of_weight_zero_links_nothing(self):
        graph = sparse.block_diag([self.graph, self.graph], "csr").tolil()
        graph[0, 60] = graph[60, 0] = 1.0
        graph = graph.tocsr()
        self.assertEqual(warnings_about(graph), [])
        graph.data[[graph.indptr[0] + graph[0].nnz - 1, graph.indptr[60]]] = 0.0
        self.assertEqual(graph[0, 60] + graph[60, 0], 0.0)
        self.assertIn("2 components", " ".join(warnings_about(graph)))

    def test_asymmetric(self):
        graph = self.graph.copy()
        graph.data[0] += 1.0
        self.warned(graph, "the graph is not symmetric: 2 places differ")

    def test_twice(self):
        graph = csr([0, 3, 5], [1, 1, 0, 0, 1], [1.0, 2.0, 4.0, 3.0, 8.0])
        self.assertEqual(warnings_about(graph), ["1 entry names a column that stands in its row already: each counts as an entry of its own"])
        self.assertEqual((graph.nnz, graph.indices.tolist()), (5, [1, 1, 0, 0, 1]))

    def test_zeroed(self):
        """Fewer rows than the block has columns."""
        counts = spectral_embedding(csr([0, 1, 2], [1, 0], [1.0, 1.0]))[1]
        self.assertGreater(counts.zeroed, 0)
        self.warned(csr([0, 1, 2], [1, 0], [1.0, 1.0]), f"columns were zeroed {counts.zeroed} times")

    def weakened(self, *rows):
        """The graph with the links of these rows so weak that the roots of their degrees are not above 1e-12."""
        scale = sparse.diags([1e-26 if row in rows else 1.0 for row in range(60)])
        return (scale @ self.graph @ scale).tocsr()

    def test_isolated_rows_that_have_entries(self):
        """They lie at one place, though the graph links each of them with others."""
        for rows, said in (((7,), "1 isolated row has entries: "), ((7, 30, 44), "3 isolated rows have entries: ")):
            graph = self.weakened(*rows)
            self.warned(graph, said + "the root of the degree is not above 1e-12, or is NaN, and a seed mostly has such rows at one place")
            _, out, _ = self.seed(graph)
            self.assertIn(f", 0 columns zeroed, {len(rows)} isolated rows\n", out)
            seed = np.load(self.output)
            self.assertLess(np.ptp(seed[list(rows)], axis=0).max(), 1e-9 * np.ptp(seed))

    def test_isolated_rows_with_no_entries(self):
        """They are counted, and what there is to say of them the components say."""
        graph = sparse.block_diag([self.graph, sparse.csr_matrix((2, 2))], "csr")
        self.warned(graph, "the graph has 3 components")
        self.assertIn(", 2 isolated rows\n", self.seed(graph)[1])
        graph = sparse.block_diag([self.weakened(7), sparse.csr_matrix((2, 2))], "csr")
        self.warned(graph, "the graph has 3 components", "1 isolated row has entries")
        self.assertIn(", 3 isolated rows\n", self.seed(graph)[1])


class RunFiles(Files):
    def run_file(self, graph, *words):
        return self.command("run-file", self.stored(graph), *words)

    def test_the_text_and_nothing_else(self):
        self.assertEqual(self.run_file(self.graph, "--dims", 2), (0, write_run(self.graph).decode(), ""))

    def test_options(self):
        words = ("--dims", 3, "--rounds", 400, "--degree", 7, "--seed-std", 5e-324)
        self.assertEqual(self.run_file(self.graph, *words), (0, write_run(self.graph, 3, 400, 7, 5e-324).decode(), ""))

    def test_the_defaults_are_seeds(self):
        """What is left out is the library's for both commands: a run of the file has the seed's bits."""
        _, out, _ = self.run_file(self.graph, "--dims", 2)
        file = read_run(out.encode())
        self.assertEqual((file.rounds, file.degree, file.seed_std), (5, 20, 1e-4))
        self.seed(self.graph)
        seed = spectral_embedding(file.graph, file.dims, file.rounds, file.degree, file.seed_std)[0]
        np.testing.assert_array_equal(bits(np.load(self.output)), bits(seed))

    def test_entries_are_taken_as_they_stand(self):
        """Neither sorted nor summed, with seed's warnings on standard error alone."""
        graph = csr([0, 3, 5], [1, 1, 0, 1, 0], [1.0, 2.0, -0.0, 8.0, 3.0])
        status, out, err = self.run_file(graph, "--dims", 2)
        self.assertEqual((status, out), (0, write_run(graph).decode()))
        self.assertIn("\ncolumns=1,1,0,1,0\n", out)
        self.assertEqual(err, "".join(f"threshcinch: warning: {line}\n" for line in warnings_about(graph)))
        self.assertEqual(err.count("\n"), 1)

    def test_warnings(self):
        graph = sparse.block_diag([random_graph(20, 4, 2), random_graph(20, 4, 3)], "csr")
        graph.data[0] += 1.0
        status, out, err = self.run_file(graph, "--dims", 2)
        self.assertEqual((status, out), (0, write_run(graph).decode()))
        self.assertEqual(err.count("threshcinch: warning: the graph "), 2)
        self.assertIn("is not symmetric: 2 places differ", err)
        self.assertIn("has 2 components", err)

    def test_other_formats_are_converted_with_a_word(self):
        status, out, err = self.run_file(self.graph.tocsc(), "--dims", 2)
        self.assertEqual((status, out), (0, write_run(self.graph.tocsc().tocsr()).decode()))
        self.assertRegex(err, r"\Athreshcinch: \S+graph.npz is stored as csc [^\n]+\n\Z")

    def refused_graph(self, said, starts, columns, values, *words):
        """Arrays as they are, into a file: SciPy looks at few of them when it reads it."""
        rows, path = len(starts) - 1, self.path("wrong.npz")
        np.savez(path, format=b"csr", shape=(rows, rows), indptr=np.array(starts), indices=np.array(columns, int), data=np.array(values, float))
        self.refused(said, "run-file", path, "--dims", 2, *words)

    def test_a_word_for_each_refusal(self):
        self.refused_graph(r"refusal 17 at line 5 \(at most 64 rows\): the text is not a run file", [0] * 66, [], [])
        self.refused_graph(r"refusal 17 at line 6 \(at most 1,024 entries\): the text", [0, 1025], [0] * 1025, [1.0] * 1025)
        self.refused_graph("refusal 2 at 0: fewer than two row starts", [0], [], [])
        self.refused_graph("refusal 5 at 2: the row starts do not begin at 0, fall", [0, 2, 1, 3], [0] * 3, [1.0] * 3)
        self.refused_graph("refusal 6 at 1: a column is not below the number of rows", [0, 1, 2], [0, 2], [1.0] * 2)
        self.refused_graph("refusal 7 at 1: a value is NaN or infinite", [0, 1, 2], [0, 0], [1.0, np.inf])
        graph = self.stored(self.graph)
        for said, words in (
            (r"refusal 17 at line 2 \(rounds, at most 400\): the text is not a run file", ("2", "--rounds", 401)),
            ("refusal 1 at 0: dimensions are not 1 to 7", ("8",)),
            ("refusal 1 at 0: dimensions are not 1 to 7", ("-1",)),
            ("refusal 8 at 0: rounds are not 1 to 1,000", ("2", "--rounds", "0")),
            ("refusal 8 at 0: rounds are not 1 to 1,000", ("2", "--rounds", "-1")),
            ("refusal 9 at 0: degree is not 1 to 1,000", ("2", "--degree", 1001)),
            ("refusal 10 at 0: seed_std is not positive and finite", ("2", "--seed-std", "nan")),
        ):
            self.refused(said, "run-file", graph, "--dims", *words)

    def test_every_line_that_may_be_too_long_has_words(self):
        """17 at 7 is not met from a file, as SciPy refuses a matrix with more values than columns."""
        self.assertEqual(sorted(_command.LINE_SIZES), [2, 5, 6, 7])

    def test_the_order(self):
        """17 before all others, then 1 to 10."""
        self.refused_graph("refusal 17 at line 2", [0] * 65 + [1025], [99] * 1025, [np.nan] * 1025, "--rounds", 401, "--degree", 0)
        self.refused_graph("refusal 17 at line 5", [0] * 65 + [1025], [99] * 1025, [np.nan] * 1025, "--rounds", 0, "--degree", 0)
        self.refused_graph("refusal 17 at line 6", [0, 1025], [99] * 1025, [np.nan] * 1025, "--rounds", 0, "--degree", 0)
        self.refused_graph("refusal 6 at 0", [0, 1024], [99] * 1024, [np.nan] * 1024, "--rounds", 0, "--degree", 0)
        self.refused_graph("refusal 7 at 0", [0, 1024], [0] * 1024, [np.nan] * 1024, "--rounds", 0, "--degree", 0)
        self.refused_graph("refusal 8 at 0", [0, 1], [0], [1.0], "--rounds", 0, "--degree", 0)

    def test_refused_files(self):
        pathlib.Path(self.path("text")).write_text("neither\n")
        np.save(self.output, np.zeros((2, 2)))
        wide = self.stored(sparse.csr_matrix((3, 4)), "wide.npz")
        for wrong, said in ((self.path("text"), "neither"), (self.output, "not a graph"), (self.path("none"), "none"), (wide, "square")):
            self.refused(said, "run-file", wrong, "--dims", 2)

    def test_a_file_that_takes_little_at_a_time(self):
        """As an unbuffered one may: its write answers how many bytes it took."""
        taken = []

        class Slow(io.BytesIO):
            def write(self, data):
                taken.append(bytes(data[:7]))
                return len(taken[-1])

        self.output_file = Slow
        status, _, err = self.run_file(self.graph, "--dims", 2)
        self.assertEqual((status, b"".join(taken), err), (0, write_run(self.graph), ""))


class Markets(Files):
    """Matrix Market files, wherever a graph is named."""

    banner = "%%MatrixMarket matrix coordinate pattern symmetric\n"
    lines = "% four in a ring, and a fifth\n5 5 5\n2 1\n3 2\n4 3\n4 1\n5 4\n"
    graph_read = csr([0, 2, 4, 6, 9, 10], [1, 3, 0, 2, 1, 3, 0, 2, 4, 3], [1.0] * 10)

    def market(self, lines=lines, banner=banner, name="graph.mtx"):
        path = pathlib.Path(self.path(name))
        path.write_bytes((banner + lines).encode())
        return str(path)

    def commands(self, path, *words):
        """Each that takes a graph and parameters."""
        return (("seed", path, "-o", self.output, *words), ("run-file", path, *(words if "--dims" in words else ("--dims", 2, *words))))

    def test_seed(self):
        path = self.market()
        status, out, err = self.command("seed", path, "-o", self.output, "--dims", 3)
        seed, _ = spectral_embedding(self.graph_read, 3)
        np.testing.assert_array_equal(bits(np.load(self.output)), bits(seed))
        self.assertEqual(status, 0)
        self.assertIn("5 rows, 10 entries; 3 numbers a row, ", out)
        self.assertEqual(out.splitlines()[2:], [f"graph {graph_digest(self.graph_read)} {path}", f"seed {seed_digest(seed)} {self.output}"])
        # all but the file's name is as for the same graph from .npz
        other = self.command("seed", self.stored(self.graph_read), "-o", self.output, "--dims", 3)
        self.assertEqual((status, out.replace("graph.mtx", "graph.npz"), err), other)

    def test_run_file(self):
        self.assertEqual(self.command("run-file", self.market(), "--dims", 2), (0, write_run(self.graph_read).decode(), ""))

    def test_digest(self):
        path, digest = self.market(), graph_digest(self.graph_read)
        self.assertEqual(self.command("digest", path), (0, f"graph {digest} {path}\n", ""))
        wrong = self.market("5 5 5\n", name="wrong.mtx")
        status, out, err = self.command("digest", wrong, path)
        self.assertEqual((status, out), (1, f"graph {digest} {path}\n"))
        self.assertEqual(err, f"threshcinch: {wrong}: refusal 19 at line 3: {WORDS[19]}\n")

    def test_by_banner_and_by_name(self):
        """A file that has the banner may have any name; one that is named so is told what is wrong with its banner."""
        for name in ("graph", "graph.txt", "graph.npz"):
            self.assertEqual(self.command("digest", self.market(name=name))[0], 0)
        for name in ("other.mtx", "OTHER.MTX"):
            for banner in ("", "%", "%%matrixMarket matrix coordinate pattern symmetric\n", "\n" + self.banner):
                self.refused(rf"{name}: refusal 19 at line 1: {WORDS[19]}", "digest", self.market(banner=banner, name=name))
        self.refused("empty.mtx: refusal 19 at line 1", "digest", self.market("", "", "empty.mtx"))
        self.refused("other.txt: neither a graph .*Matrix Market file", "digest", self.market(banner="%", name="other.txt"))
        self.assertEqual(self.command("digest", self.stored(self.graph, "zip.npz"))[0], 0)
        os.rename(self.path("zip.npz"), self.path("zip.mtx"))
        self.assertEqual(self.command("digest", self.path("zip.mtx"))[0], 0)

    def test_19(self):
        for line, lines in ((2, ""), (2, "2 3 1\n1 1\n"), (3, "5 5 1\n4 5\n"), (4, "5 5 2\n5 4\n5 4\n"), (4, "5 5 1\n5 4\n5 5\n"), (4, "5 5 2\n5 4\n")):
            for words in self.commands(self.market(lines, name="wrong.mtx")):
                self.refused(rf"wrong\.mtx: refusal 19 at line {line}: {WORDS[19]}", *words)
        self.assertFalse(os.path.exists(self.output))

    def test_19_comes_before_what_is_wrong_with_the_parameters(self):
        path = self.market("5 5 1\n4 5\n")
        for wrong in (("--dims", 8), ("--dims", -1), ("--rounds", 0), ("--rounds", 401), ("--rounds", 1001), ("--degree", 0), ("--seed-std", "nan")):
            for words in self.commands(path, *wrong):
                self.refused("refusal 19 at line 3", *words)
        # and of a file that is one
        for number, wrong in ((1, ("--dims", 8)), (9, ("--degree", 0)), (10, ("--seed-std", "nan"))):
            for words in self.commands(self.market(), *wrong):
                self.refused(f"refusal {number} at 0", *words)

    def test_2_and_3(self):
        """They too are the file's, and come before those of the parameters."""
        for number, lines in ((2, "0 0 0\n"), (3, "1048577 1048577 1\n7 7\n")):
            for words in self.commands(self.market(lines), "--dims", 8):
                self.refused(rf"graph\.mtx: refusal {number} at 0: {WORDS[number]}", *words)

    def test_warnings(self):
        path = self.market("5 5 3\n2 1\n3 2\n5 4\n")
        for words in self.commands(path):
            status, _, err = self.command(*words)
            self.assertEqual(status, 0)
            self.assertIn("threshcinch: warning: the graph has 2 components", err)
            self.assertNotIn("symmetric", err)

    def test_stop_and_resume(self):
        """The same graph from either file: a run that was left over one goes on over the other."""
        save = self.output + ".held"
        Run.open(self.graph_read).save(save)
        status, out, _ = self.command("seed", self.market(), "-o", self.output, "--resume")
        self.assertEqual((status, out.split()[-2]), (0, seed_digest(spectral_embedding(self.graph_read)[0])))
        self.assertFalse(os.path.exists(save))

    def test_help(self):
        for command in ("seed", "run-file"):
            status, out, _ = self.command(command, "--help")
            self.assertEqual(status, 0)
            for words in ("Matrix Market file of the kind coordinate pattern symmetric", "refused by 19 at its first line at fault"):
                self.assertIn(words, out)
        self.assertIn("(.npz, .mtx)", self.command("digest", "--help")[1])


class RefusedWords(Files):
    def test_refusals_of_the_library(self):
        graph = self.stored(self.graph)
        for name, number, said in (("dims", 8, "refusal 1 at 0: dimensions are not 1 to 7"), ("rounds", 0, "refusal 8"), ("seed-std", "nan", "refusal 10")):
            self.refused(said, "seed", graph, "-o", self.output, f"--{name}", number)
        self.graph.data[3] = np.nan
        wrong = self.stored(self.graph, "nan.npz")
        self.refused("refusal 7 at 3: a value is NaN or infinite", "seed", wrong, "-o", self.output)
        self.refused("nan.npz: refusal 7 at 3", "digest", wrong)
        self.assertFalse(os.path.exists(self.output))

    def test_refused_files(self):
        text, pickled, other = self.path("text"), self.path("pickled.npy"), self.path("other.npz")
        pathlib.Path(text).write_text("neither\n")
        np.save(pickled, np.array([[None]]), allow_pickle=True)
        np.savez(other, numbers=np.zeros(3))
        np.save(self.output, np.zeros((2, 2)))
        cut = self.path("cut.npz")
        pathlib.Path(cut).write_bytes(pathlib.Path(self.stored(self.graph)).read_bytes()[:300])
        wide = self.stored(sparse.csr_matrix((3, 4)), "wide.npz")
        none = self.path("none")
        for wrong, said in ((text, "neither"), (other, "other.npz"), (self.output, "not a graph"), (cut, "cut.npz"), (none, "none"), (wide, "square")):
            self.refused(said, "seed", wrong, "-o", self.path("new.npy"))
        for wrong in (text, pickled, other, cut, wide, none, str(self.folder)):
            self.refused(os.path.basename(wrong), "digest", wrong)

    def test_pickled_graphs_run_nothing(self):
        """A file from elsewhere must not run code: np.load would, if it were let."""

        class Harm:
            def __reduce__(self):
                return (os.mkdir, (harm,))

        harm = self.path("harm")
        np.savez(self.path("harm.npz"), format=np.array([Harm()], object))
        np.save(self.path("harm.npy"), np.array([[Harm()]], object), allow_pickle=True)
        for name in ("harm.npz", "harm.npy"):
            self.refused(name, "digest", self.path(name))
        self.assertFalse(os.path.exists(harm))
        self.assertIn(b"mkdir", pickle.dumps(Harm()))

    def test_digest_goes_on_after_a_refusal(self):
        graph = self.stored(self.graph)
        status, out, err = self.command("digest", self.path("none"), graph)
        self.assertEqual((status, out), (1, f"graph {graph_digest(self.graph)} {graph}\n"))
        self.assertIn("none", err)

    def test_an_output_that_cannot_be_written_is_told_before_the_work(self):
        graph = self.stored(self.graph)
        with mock.patch.object(_command, "_drive", side_effect=AssertionError("the work was begun")):
            self.refused("no folder", "seed", graph, "-o", self.path("nothing/seed.npy"))
            self.refused("no folder", "seed", graph, "-o", self.output, "--save", self.path("nothing/held"))
            self.refused("no folder", "seed", graph, "-o", self.output, "--record", self.path("nothing/record.npy"))
            self.refused("is a folder", "seed", graph, "-o", str(self.folder))

    def test_one_file_for_two_things(self):
        """Otherwise the one that is written last would be all that is left, or be removed with the saved run."""
        graph = self.stored(self.graph)
        with mock.patch.object(_command, "_drive", side_effect=AssertionError("the work was begun")):
            for words in (("--record", self.output), ("--record", self.output + ".held"), ("--save", self.path("./seed.npy"))):
                self.refused("one file cannot be two of these", "seed", graph, "-o", self.output, *words)

    def test_words_not_understood(self):
        graph = self.stored(self.graph)
        whole = ("seed", graph, "-o", self.output)
        parts = ((), ("sed",), ("digest",), ("seed", graph), ("run-file", graph), ("run-file", "--dims", 2), ("run-file", graph, "--dims", 2, "-o", "x"))
        for words in (*parts, whole + ("--dims", "x"), whole + ("--threads", 0), whole + ("--fast",)):
            status, out, err = self.command(*words)
            self.assertEqual((status, out), (2, ""))
            self.assertIn("usage: threshcinch", err)

    def test_help_has_the_definitions(self):
        for command in ("seed", "digest"):
            status, out, _ = self.command(command, "--help")
            self.assertEqual(status, 0)
            for words in ("'threshcinch graph 1'", "'threshcinch seed 1'", "7ff8000000000000", "Status: 0"):
                self.assertIn(words, out)

    def test_help_has_a_run_files_sizes(self):
        status, out, _ = self.command("run-file", "--help")
        self.assertEqual(status, 0)
        for words in ("at most 64 rows, 1,024 entries and 400 rounds", "--dims D", "1 to 400 (5)", "1 to 1,000 (20)", "(1e-4)", "Status: 0"):
            self.assertIn(words, out)
        self.assertRegex(self.command("--help")[1], r"run-file +a stored graph as a run file\n")


class Stopped(Files):
    """Ctrl-C leaves a save, and --resume goes on from it to the same bits."""

    def stopped(self, number, *words, at=61):
        @contextlib.contextmanager
        def interrupting(stream):
            yield lambda accepted, owed: os.kill(os.getpid(), number) if accepted == at else None

        with mock.patch.object(_command, "bar", interrupting):
            return self.seed(self.graph, *words)

    def test_stop_and_resume(self):
        for number, words in ((signal.SIGINT, ()), (signal.SIGTERM, ("--save", self.path("other.held"), "--dims", 3))):
            before = signal.getsignal(number)
            status, out, err = self.stopped(number, *words)
            save = words[1] if words else self.output + ".held"
            self.assertEqual((status, out, err), (128 + number, "", f"threshcinch: stopped, and left in {save}: --resume goes on from there\n"))
            self.assertIs(signal.getsignal(number), before)
            self.assertEqual((os.path.exists(save), os.path.exists(self.output)), (True, False))
            status, out, err = self.seed(self.graph, "--resume", *words)
            seed, _ = spectral_embedding(self.graph, 3 if words else 2)
            self.assertEqual((status, err, out.split()[-2]), (0, "", seed_digest(seed)))
            self.assertFalse(os.path.exists(save))
            os.unlink(self.output)

    def test_the_record_of_a_resumed_run(self):
        """The save has the rounds that were closed before."""
        record = self.path("record.npy")
        self.assertEqual(self.stopped(signal.SIGINT, "--degree", 1, "--rounds", 4, "--record", record, at=400)[0], 130)
        self.assertEqual(Run.load(self.graph, self.output + ".held").rounds_closed, 2)
        self.assertFalse(os.path.exists(record))
        self.assertEqual(self.seed(self.graph, "--resume", "--record", record)[0], 0)
        np.testing.assert_array_equal(bits(np.load(record)), bits(spectral_embedding(self.graph, 2, 4, 1).ritz_record))

    def test_a_save_of_version_1(self):
        shutil.copy(HERE / "version1.held", self.output + ".held")
        graph = self.stored(csr([0, 1, 2], [1, 0], [1.0, 2.0]))
        self.refused("seed.npy.held: the saved run is of threshcinch 0.1, which kept no Ritz record", "seed", graph, "-o", self.output, "--resume")
        self.assertTrue(os.path.exists(self.output + ".held"))

    def test_a_save_of_version_2(self):
        """It goes on, and the count is the one that a run from its opening has."""
        shutil.copy(HERE / "version2.held", self.output + ".held")
        graph = self.stored(KINDS)
        status, out, _ = self.command("seed", graph, "-o", self.output, "--resume")
        seed, counts = spectral_embedding(KINDS, 1, 2, 2)
        self.assertEqual((status, out.split()[-2]), (0, seed_digest(seed)))
        self.assertIn(f" columns zeroed, {counts.isolated} isolated rows\n", out)
        self.assertFalse(os.path.exists(self.output + ".held"))

    def test_what_does_not_fit(self):
        self.refused("seed.npy.held", "seed", self.stored(self.graph), "-o", self.output, "--resume")
        self.stopped(signal.SIGINT)
        self.refused("opened with dims 2, and 3 is asked", "seed", self.path("graph.npz"), "-o", self.output, "--resume", "--dims", 3)
        other = self.stored(random_graph(60, 4, 2), "other.npz")
        self.refused("over another graph", "seed", other, "-o", self.output, "--resume")
        self.assertTrue(os.path.exists(self.output + ".held"))
        _, _, err = self.seed(self.graph)
        self.assertIn("--resume would go on from it", err)

    def test_what_was_ignored_stays_so(self):
        before = signal.signal(signal.SIGTERM, signal.SIG_IGN)
        try:
            self.assertEqual(self.stopped(signal.SIGTERM)[0], 0)
        finally:
            signal.signal(signal.SIGTERM, before)


class Terminal(io.StringIO):
    def isatty(self):
        return True


class Bars(unittest.TestCase):
    def drawn(self, stream):
        with bar(stream) as tell:
            for accepted in range(0, 201, 50):
                tell(accepted, 200 - accepted)
        return stream.getvalue()

    def test_tqdm(self):
        import tqdm

        with mock.patch.object(tqdm.tqdm, "update", autospec=True) as update:
            self.drawn(Terminal())
        self.assertEqual(update.call_args_list[-1].args[1], 200)
        self.assertIn("\r", self.drawn(Terminal()))

    def test_plain(self):
        with mock.patch.dict(sys.modules, tqdm=None):
            self.assertEqual(self.drawn(Terminal()), "".join(f"\r{percent:3d}% of 200 calls" for percent in (0, 25, 50, 75, 100)) + "\r\x1b[K")

    def test_nothing_on_a_pipe(self):
        pipe = io.StringIO()
        with bar(pipe) as tell:
            self.assertIsNone(tell)
        self.assertEqual(pipe.getvalue(), "")


class Processes(Files):
    """What only a process of its own shows."""

    def process(self, *words, shell="", **more):
        """Its standard files are as the shell's words say, and else as `more` does."""
        environment = {**os.environ, "PYTHONPATH": str(PACKAGE)}
        command = ["sh", "-c", f'"$0" -m threshcinch "$@" {shell}', sys.executable, *words]
        return subprocess.run(command, env=environment, **{"stdout": subprocess.PIPE, "stderr": subprocess.PIPE, "text": True, **more})

    def both(self):
        """A command that prints, and one that writes bytes."""
        graph = self.stored(self.graph)
        return (("digest", graph), ("run-file", graph, "--dims", "2"))

    def test_as_a_module(self):
        done = self.process("--version")
        self.assertEqual((done.returncode, done.stdout, done.stderr), (0, f"threshcinch {threshcinch.__version__}\n", ""))

    def test_a_reader_that_has_gone(self):
        for words in self.both():
            reader, writer = os.pipe()
            os.close(reader)
            done = self.process(*words, stdout=writer)
            os.close(writer)
            self.assertEqual((done.returncode, done.stderr), (1, "threshcinch: standard output: its reader has gone\n"))

    def test_a_full_output(self):
        """With Python's buffer and without."""
        for words in self.both():
            for buffered in ("", "1"):
                with mock.patch.dict(os.environ, PYTHONUNBUFFERED=buffered):
                    done = self.process(*words, shell=">/dev/full")
                self.assertEqual((done.returncode, done.stderr), (1, "threshcinch: standard output: No space left on device\n"))

    def test_a_closed_output(self):
        for words in self.both():
            done = self.process(*words, shell=">&-")
            self.assertEqual((done.returncode, done.stderr), (1, "threshcinch: standard output is closed\n"))

    def test_warnings_that_nobody_hears(self):
        """They never go to standard output, and are no failure."""
        self.graph.data[0] += 1.0
        for shell in ("2>&-", "2>/dev/full"):
            done = self.process("run-file", self.stored(self.graph), "--dims", "2", shell=shell, text=False)
            self.assertEqual((done.returncode, done.stdout, done.stderr), (0, write_run(self.graph), b""))

    def test_a_run_file_through_a_pipe(self):
        """Python reads what the command wrote, and writes it again."""
        again = "import sys, threshcinch as t; f = t.read_run(sys.stdin.buffer.read()); sys.stdout.buffer.write(t.write_run(f.graph, *f[:4]))"
        done = self.process("run-file", self.stored(self.graph), "--dims", "3", "--degree", "4", shell=f"| '{sys.executable}' -c '{again}'", text=False)
        self.assertEqual((done.returncode, done.stdout, done.stderr), (0, write_run(self.graph, 3, degree=4), b""))
