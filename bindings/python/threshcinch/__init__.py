"""threshcinch: the spectral seed of a neighbour graph, from Python on x86-64, with NumPy and SciPy.

    import threshcinch
    seed, counts = threshcinch.spectral_embedding(graph)      # graph: scipy.sparse.csr_matrix or csr_array, n x n

The work is done by libthreshcinch.so, which lies in an installed package. In the repository library/build writes it to target/library. The
environment variable THRESHCINCH_LIB names another folder that holds it (one with libthreshcinch.a too serves the Rust binding as well).

Everything here either turns SciPy's arrays into the library's lists or turns its answers into Python's. No number of a seed is computed
here, so it has the library's bits: the same on every machine, for the same entries in the same order. That holds in every floating-point
environment too: conversions to float64 and the library's calls are made in the default one, and the thread's own is put back after each.

    spectral_embedding      a graph's seed, and Counts of what the run did: an Embedding, which also has each round's Ritz values
    Run                     the same work held: chunk by chunk, with threads, stopped, saved to a file and gone on with
    Refusal, LoadError      what the library, or a saved run, is refused by
    graph_digest, seed_digest
                            SHA-256 of a graph and of a seed, by which two people see that they have the same
    write_run, read_run     a run file, the text that the program `seedrun` reads, of a graph, and back as a RunFile
    write_answer            what `seedrun` prints, of a seed or a refusal
    read_matrix_market      the graph of a Matrix Market file
    python3 -m threshcinch  the command; installed also as `threshcinch`
"""
from ._digest import graph_digest, seed_digest
from ._market import read_matrix_market
from ._refusal import LoadError, Refusal
from ._run import Counts, Embedding, Progress, Run, spectral_embedding
from ._text import RunFile, read_run, write_answer, write_run

__version__ = "0.3.5"
__all__ = ["Counts", "Embedding", "LoadError", "Progress", "Refusal", "Run", "RunFile", "graph_digest", "read_matrix_market", "read_run"]
__all__ += ["seed_digest", "spectral_embedding", "write_answer", "write_run"]
