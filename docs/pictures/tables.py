"""docs/pictures/tables.py FOLDER GUIDE: writes the tables of docs/GUIDE.md from the graphs and seeds in FOLDER.

A table stands in GUIDE between the lines `<!-- table: NAME -->` and `<!-- end -->`; what was there goes. Prints which ones changed.
"""
import json
import pathlib
import re
import sys

import numpy as np
from exact import agreements, graph_of, solved
from runs import COLLAPSES, GRIDS, SEED_STDS, name_of, seed_file
from scipy.sparse import csgraph


def table(head, rows):
    lines = [head, ["---"] * len(head)] + rows
    return "\n".join("| " + " | ".join(str(cell) for cell in line) + " |" for line in lines)


def grid(folder, name):
    """Agreement of both columns, by rounds and degree."""
    rounds, degrees = GRIDS[name]
    rows = []
    for r in rounds:
        pairs = [agreements(folder, name, rounds=r, degree=d) for d in degrees]
        rows.append([r] + [f"{first:.4f}, {second:.4f}" for first, second in pairs])
    return table(["rounds"] + [f"degree {d}" for d in degrees], rows)


def spectra(folder):
    """The eigenvalues that a seed has to tell apart."""
    rows = []
    for name in GRIDS:
        graph = graph_of(folder, name)
        rows.append([GRAPHS_IN_WORDS[name], f"{graph.shape[0]:,}", f"{graph.nnz:,}"] + [f"{value:.6f}" for value in solved(folder, name)[0][1:5]])
    return table(["graph", "rows", "entries", "second eigenvalue", "third", "fourth", "fifth"], rows)


def noted(folder, name, **asked):
    """What seeds.py has noted of a run."""
    return json.loads((pathlib.Path(folder) / "runs.json").read_text())[name_of(name, **asked)]


def digests(folder):
    rows = []
    for name in ("digits", "clusters", "chain", "components"):
        run = noted(folder, name)
        rows += [[name, "graph", f"`{run['graph']}`"], ["", "seed", f"`{run['seed']}`"]]
    return table(["graph", "digest of", "SHA-256"], rows)


GRAPHS_IN_WORDS = {
    "complete": "100 rows, each linked with every other",
    "star": "100 rows, one linked with every other",
    "six": "a chain of six rows",
    "clusters": "the two clusters",
    "digits": "the digits",
    "chain": "the chain",
}


# with many equal eigenvalues any direction among them is as good as another
TIED = ("complete", "star")


def collapses(folder):
    rows = []
    for graph, asked in COLLAPSES:
        run = noted(folder, graph, **asked)
        words = ", ".join(f"{word} {number}" for word, number in asked.items()) or "defaults"
        agreement = "ties" if graph in TIED else "{:.4f}, {:.4f}".format(*agreements(folder, graph, **asked))
        rows.append([GRAPHS_IN_WORDS[graph], words, run["refreshed"], run["zeroed"], agreement])
    return table(["graph", "parameters", "refreshed", "zeroed", "agreement"], rows)


def seed_stds(folder):
    usual = np.load(seed_file(folder, "digits", seed_std=1e-4))
    rows = []
    for std in SEED_STDS:
        seed = np.load(seed_file(folder, "digits", seed_std=std))
        with np.errstate(all="ignore"):
            apart = np.abs(seed / std - usual / 1e-4).max()
        spread = np.sqrt(((seed / std) ** 2).mean(axis=0)) * std
        rows.append([f"{std:g}", f"{spread[0]:.6g}, {spread[1]:.6g}", f"{apart:.0e}" if apart else "0"])
    return table(["seed_std", "standard deviation of the columns", "largest difference to the first line's seed, both divided by seed_std"], rows)


def components(folder):
    """Where each component of the graph lies, and how far its rows spread there."""
    seed = np.load(seed_file(folder, "components"))
    _, part_of = csgraph.connected_components(graph_of(folder, "components"))
    rows = []
    for words, chosen in [(f"heap of {(part_of == p).sum()}", part_of == p) for p in range(3)] + [("5 rows with no entries", part_of > 2)]:
        middle, spread = seed[chosen].mean(axis=0), np.ptp(seed[chosen], axis=0).max()
        rows.append([words, f"{middle[0]:.2e}, {middle[1]:.2e}", f"{spread:.0e}"])
    return table(["rows", "their place", "greatest distance of two of them in a column"], rows)


TABLES = {
    "digests": digests,
    "spectra": spectra,
    "digits": lambda folder: grid(folder, "digits"),
    "clusters": lambda folder: grid(folder, "clusters"),
    "chain": lambda folder: grid(folder, "chain"),
    "collapses": collapses,
    "seed_std": seed_stds,
    "components": components,
}


def main(folder, guide):
    guide = pathlib.Path(guide)
    text = guide.read_text()
    for name, make in TABLES.items():
        place = re.compile(rf"(<!-- table: {name} -->\n).*?(<!-- end -->)", re.S)
        if not place.search(text):
            sys.exit(f"tables.py: {guide.name} has no place for the table {name}")
        new = place.sub(lambda found: found[1] + "\n" + make(folder) + "\n\n" + found[2], text)
        print(f"table {name}: {'as it was' if new == text else 'changed'}")
        text = new
    guide.write_text(text)


if __name__ == "__main__":
    if len(sys.argv) != 3:
        sys.exit("usage: tables.py FOLDER GUIDE")
    main(*sys.argv[1:])
