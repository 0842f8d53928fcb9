"""What a user should know of a graph that the library takes all the same, and of what a run over it counted. Nothing here reaches the numbers."""
from __future__ import annotations

import numpy as np
from scipy import sparse


def warnings_about(graph) -> list[str]:
    """A line each for: columns twice in a row, no symmetry, several components."""
    once = graph.copy()
    once.sum_duplicates()  # of the copy: it sorts and sums in place
    found = [_twice(graph, once), _asymmetric(once), _components(once)]
    return [line for line in found if line]


def warnings_after(graph, counts) -> list[str]:
    """A line each for: columns that were zeroed, isolated rows that have entries."""
    found = [_zeroed(counts), _isolated(graph, counts)]
    return [line for line in found if line]


def _zeroed(counts) -> str:
    return f"columns were zeroed {counts.zeroed} times: the block found less directions than it has columns" if counts.zeroed else ""


def _isolated(graph, counts) -> str:
    number = counts.isolated - int(np.count_nonzero(np.diff(graph.indptr) == 0))
    if number <= 0:
        return ""
    held = _several(number, "isolated row has", "isolated rows have")
    return f"{held} entries: the root of the degree is not above 1e-12, or is NaN, and a seed mostly has such rows at one place"


def _several(number: int, one: str, many: str) -> str:
    return f"{number:,} {one if number == 1 else many}"


def _twice(graph, once) -> str:
    number = graph.nnz - once.nnz
    if not number:
        return ""
    return f"{_several(number, 'entry names a column', 'entries name a column')} that stands in its row already: each counts as an entry of its own"


def _asymmetric(once) -> str:
    number = (once != once.T.tocsr()).nnz
    return f"the graph is not symmetric: {_several(number, 'place differs', 'places differ')} from the transpose" if number else ""


def _components(once) -> str:
    from scipy.sparse import csgraph  # here, as nothing else needs it

    linked = sparse.csr_matrix((once.data != 0, once.indices, once.indptr), shape=once.shape)
    linked.eliminate_zeros()  # an entry of weight zero links nothing
    number = csgraph.connected_components(linked.astype(np.float64), directed=False, return_labels=False)
    return f"the graph has {number:,} components that nothing links, and a seed mixes them" if number > 1 else ""
