"""docs/pictures/seeds.py FOLDER: computes the seeds of runs.py from the graphs in FOLDER; FOLDER/runs.json has their counts and digests.

Needs the Python package threshcinch, and so x86-64.
"""
import json
import pathlib
import sys

import numpy as np
import threshcinch
from runs import all_runs, name_of, seed_file
from scipy import sparse


def main(folder):
    noted = {}
    for name, asked in all_runs():
        graph = sparse.load_npz(pathlib.Path(folder) / f"{name}.npz")
        seed, counts = threshcinch.spectral_embedding(graph, dims=2, **asked)
        np.save(seed_file(folder, name, **asked), seed)
        digests = {"graph": threshcinch.graph_digest(graph), "seed": threshcinch.seed_digest(seed)}
        noted[name_of(name, **asked)] = {"refreshed": counts.refreshed, "zeroed": counts.zeroed, "isolated": counts.isolated, **digests}
        print(name_of(name, **asked), counts, flush=True)
    (pathlib.Path(folder) / "runs.json").write_text(json.dumps(noted, indent=1) + "\n")


if __name__ == "__main__":
    if len(sys.argv) != 2:
        sys.exit("usage: seeds.py FOLDER")
    main(sys.argv[1])
