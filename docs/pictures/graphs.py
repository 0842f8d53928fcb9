"""docs/pictures/graphs.py FOLDER: writes the graphs of the pictures and tables, as SciPy's .npz.

Needs NumPy, SciPy and scikit-learn (for its digits). Every step is exact or a single rounded operation, and ties between distances go to
the lower row, so the bits of a graph do not depend on the machine or on a library's version.
"""
import pathlib
import sys

import numpy as np
from scipy import sparse
from scipy.sparse import csgraph
from sklearn import datasets


def in_order(graph):
    """Entries as they should be before a seed is asked for: each column once a row, and rising."""
    graph = graph.tocsr()
    graph.sum_duplicates()
    graph.sort_indices()
    return graph


def neighbours(points, count):
    """Each point with its nearest others: weight 1 where both name each other, else 0.5. The points are whole numbers."""
    points = np.asarray(points, np.int64)
    squares = (points * points).sum(axis=1)
    distances = squares[:, None] + squares[None, :] - 2 * points @ points.T
    np.fill_diagonal(distances, np.iinfo(np.int64).max)
    columns = np.argsort(distances, axis=1, kind="stable")[:, :count]
    rows = len(points)
    starts = np.arange(0, rows * count + 1, count)
    graph = sparse.csr_matrix((np.full(rows * count, 0.5), columns.ravel(), starts), shape=(rows, rows))
    return in_order(graph + graph.T)


def cloud(rng, rows):
    """Points of a round heap: sums of whole numbers, so that they lie closer in its middle."""
    return rng.integers(-1000, 1001, size=(rows, 2, 4)).sum(axis=2)


def linked(graph, links):
    """The graph with links (row, row, weight) added, in both directions."""
    first, second, weight = (np.array(each) for each in zip(*links))
    both = (np.r_[weight, weight], (np.r_[first, second], np.r_[second, first]))
    return in_order(graph + sparse.csr_matrix(both, shape=graph.shape))


def chain(rows):
    """Each row with the next one, weight 1."""
    ones = np.ones(rows - 1)
    return in_order(sparse.diags([ones, ones], [-1, 1]))


def digits():
    """1,797 pictures of digits with 64 grey values of 0 to 16, each with its 15 nearest."""
    return neighbours(datasets.load_digits().data, 15)


def clusters():
    """Two heaps of 300 points with ten neighbours each; one link of weight 0.01 joins them."""
    rng = np.random.default_rng(1)
    two = sparse.block_diag([neighbours(cloud(rng, 300), 10), neighbours(cloud(rng, 300), 10)])
    return linked(two.tocsr(), [(0, 300, 0.01)])


def components():
    """Three heaps of 300, 200 and 100 points with ten neighbours each and no link between them, and five rows with no entries."""
    rng = np.random.default_rng(2)
    heaps = [neighbours(cloud(rng, rows), 10) for rows in (300, 200, 100)]
    return in_order(sparse.block_diag(heaps + [sparse.csr_matrix((5, 5))]))


def largest():
    """The first of the three heaps alone."""
    return components()[:300, :300]


def complete(rows):
    """Each row with every other, weight 1."""
    return in_order(sparse.csr_matrix(np.ones((rows, rows)) - np.eye(rows)))


def star(rows):
    """Row 0 with every other row, weight 1."""
    return linked(sparse.csr_matrix((rows, rows)), [(0, row, 1.0) for row in range(1, rows)])


GRAPHS = {
    "digits": digits,
    "clusters": clusters,
    "chain": lambda: chain(1000),
    "components": components,
    "largest": lambda: in_order(largest()),
    "complete": lambda: complete(100),
    "star": lambda: star(100),
    "six": lambda: chain(6),
}


def main(folder):
    folder = pathlib.Path(folder)
    folder.mkdir(parents=True, exist_ok=True)
    for name, make in GRAPHS.items():
        graph = make()
        sparse.save_npz(folder / f"{name}.npz", graph)
        parts = csgraph.connected_components(graph)[0]
        print(f"{name}: {graph.shape[0]} rows, {graph.nnz} entries, {parts} component{'s' * (parts > 1)}")


if __name__ == "__main__":
    if len(sys.argv) != 2:
        sys.exit("usage: graphs.py FOLDER")
    main(sys.argv[1])
