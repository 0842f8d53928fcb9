"""Stored graphs and seeds, known by how their files begin; a Matrix Market file by its name too, so that one without its banner is told what is
wrong with it."""
from __future__ import annotations

from typing import Optional

import numpy as np
from scipy import sparse

from ._market import read_matrix_market
from ._refusal import MATRIX_MARKET, Refusal

# Another form of a graph's file is one more line here, and its reader in read_graph.
BEGINNINGS = {b"PK\x03\x04": "graph", b"%%MatrixMarket": "market", b"\x93NUMPY": "seed"}
# both forms of a graph's file, for people
GRAPHS = ".npz of scipy.sparse.save_npz, or a Matrix Market file, .mtx"


class Trouble(Exception):
    """What a user is told in a line, and the command ends with status 1."""


def kind_of(path: str) -> str:
    """'graph' for SciPy's .npz, 'market' for a Matrix Market file, 'seed' for NumPy's .npy."""
    with open(path, "rb") as file:
        beginning = file.read(max(map(len, BEGINNINGS)))
    for letters, kind in BEGINNINGS.items():
        if beginning.startswith(letters):
            return kind
    if path.lower().endswith(".mtx"):
        return "market"
    raise Trouble(f"{path}: neither a graph ({GRAPHS}) nor a seed (.npy of numpy.save)")


def _loaded(path: str, load):
    """What a reader of NumPy's or SciPy's answers. They raise many things for a damaged file: each is words for the user."""
    try:
        return load(path)
    except OSError:
        raise
    except Exception as fault:
        raise Trouble(f"{path}: {fault or type(fault).__name__}") from fault


def _read_market(path: str) -> sparse.csr_matrix:
    try:
        return read_matrix_market(path)
    except Refusal as refusal:
        line = "line " if refusal.number == MATRIX_MARKET else ""
        raise Trouble(f"{path}: refusal {refusal.number} at {line}{refusal.place}: {refusal.words}") from refusal


def read_graph(path: str) -> tuple[sparse.csr_matrix, Optional[str]]:
    """A stored graph as CSR, and a word to the user where it was stored as another of SciPy's formats."""
    kind = kind_of(path)
    if kind == "market":
        return _read_market(path), None
    if kind != "graph":
        raise Trouble(f"{path}: not a graph ({GRAPHS})")
    graph = _loaded(path, sparse.load_npz)
    if graph.format == "csr":
        return graph, None
    word = f"{path} is stored as {graph.format} and is taken as SciPy's .tocsr() makes it; its digest is of that"
    return graph.tocsr(), word


def read_seed(path: str) -> np.ndarray:
    return _loaded(path, lambda name: np.load(name, allow_pickle=False))
