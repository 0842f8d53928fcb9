"""Tests of an installed package: bindings/python/test_wheel runs this with the Python of a fresh venv, outside the repository."""
import importlib.metadata
import os
import pathlib
import subprocess
import sys
import tempfile
import unittest

import numpy as np
from scipy import sparse

import threshcinch
from threshcinch import _library

COMMAND = os.path.join(sys.prefix, "bin", "threshcinch")


def ring(rows):
    """Each row with the one before it and the one after it."""
    before = np.arange(-1, rows - 1) % rows
    links = sparse.coo_matrix((np.arange(1.0, rows + 1), (np.arange(rows), before)), shape=(rows, rows)).tocsr()
    return (links + links.T).tocsr()


class Installed(unittest.TestCase):
    def test_it_is_the_installed_one(self):
        self.assertNotEqual(sys.prefix, sys.base_prefix)
        for file in (threshcinch.__file__, _library.library._name):
            self.assertTrue(file.startswith(sys.prefix + os.sep), file)
        self.assertTrue((pathlib.Path(threshcinch.__file__).parent / "py.typed").is_file())

    def test_version(self):
        self.assertEqual(importlib.metadata.version("threshcinch"), threshcinch.__version__)

    def test_licence(self):
        files = [file.name for file in importlib.metadata.files("threshcinch")]
        self.assertIn("NOTICE", files)

    def run_command(self, *words):
        done = subprocess.run(words, capture_output=True, text=True)
        self.assertNotIn("Traceback", done.stderr)
        return done.returncode, done.stdout, done.stderr

    def test_command(self):
        with tempfile.TemporaryDirectory() as folder:
            graph, output = os.path.join(folder, "graph.npz"), os.path.join(folder, "seed.npy")
            sparse.save_npz(graph, ring(5000))
            status, out, err = self.run_command(COMMAND, "seed", graph, "-o", output, "--rounds", "1", "--degree", "2", "--threads", "2")
            seed, _ = threshcinch.spectral_embedding(ring(5000), rounds=1, degree=2)
            digests = [f"graph {threshcinch.graph_digest(ring(5000))} {graph}", f"seed {threshcinch.seed_digest(seed)} {output}"]
            self.assertEqual((status, err, out.splitlines()[2:]), (0, "", digests))
            self.assertEqual(self.run_command(sys.executable, "-m", "threshcinch", "digest", graph, output), (0, "\n".join(digests) + "\n", ""))

    def test_run_file(self):
        with tempfile.TemporaryDirectory() as folder:
            graph = os.path.join(folder, "graph.npz")
            sparse.save_npz(graph, ring(50))
            text = threshcinch.write_run(ring(50), 3).decode()
            self.assertEqual(self.run_command(COMMAND, "run-file", graph, "--dims", "3"), (0, text, ""))

    def test_matrix_market(self):
        with tempfile.TemporaryDirectory() as folder:
            graph = os.path.join(folder, "graph.mtx")
            pathlib.Path(graph).write_bytes(b"%%MatrixMarket matrix coordinate pattern symmetric\n3 3 2\n2 1\n3 2\n")
            digest = threshcinch.graph_digest(threshcinch.read_matrix_market(graph))
            self.assertEqual(self.run_command(COMMAND, "digest", graph), (0, f"graph {digest} {graph}\n", ""))

    def test_status(self):
        status, out, err = self.run_command(COMMAND, "digest", "nothing")
        self.assertEqual((status, out, err), (1, "", "threshcinch: [Errno 2] No such file or directory: 'nothing'\n"))
        status, out, err = self.run_command(COMMAND, "digest")
        self.assertEqual((status, out, err.startswith("usage: threshcinch digest")), (2, "", True))


if __name__ == "__main__":
    unittest.main()
