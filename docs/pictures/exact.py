"""What a seed is measured against: eigenvectors of the same operator, by NumPy's dense solver."""
import functools
import pathlib

import numpy as np
from runs import seed_file
from scipy import sparse


def graph_of(folder, name):
    return sparse.load_npz(pathlib.Path(folder) / f"{name}.npz")


@functools.lru_cache(maxsize=None)
def solved(folder, name):
    """The eigenvalues, falling, and the first two eigenvectors behind the first, unscaled and centred as the seed is. For connected graphs.

    A solver may turn an eigenvector's sign from machine to machine: here the last row's number is always positive, so that pictures repeat.
    """
    graph = graph_of(folder, name)
    inverse = 1 / np.sqrt(np.asarray(graph.sum(axis=1)).ravel())
    values, vectors = np.linalg.eigh(graph.toarray() * inverse[:, None] * inverse[None, :])
    columns = vectors[:, [-2, -3]] * inverse[:, None]
    columns = columns - columns.mean(axis=0)
    return values[::-1], columns * np.sign(columns[-1])


def exact(folder, name):
    return solved(folder, name)[1]


def agreements(folder, name, **asked):
    """How far each column of a seed is the exact eigenvector: the correlation of the two, without its sign. 1 is the same direction."""
    seed, columns = np.load(seed_file(folder, name, **asked)), exact(folder, name)
    return [abs(np.corrcoef(seed[:, d], columns[:, d])[0, 1]) for d in range(2)]


def turned_like(columns, seed):
    """The columns with the seed's signs: an eigenvector's sign is free."""
    return columns * np.sign((columns * seed).sum(axis=0))
