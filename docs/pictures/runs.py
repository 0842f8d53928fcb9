"""The seeds that the pictures and tables show: which graph, with which parameters. Every number not named is the library's default."""
import pathlib

# rounds and degrees of the tables, for each graph
GRIDS = {
    "digits": ((1, 2, 5, 10), (5, 20, 100)),
    "clusters": ((1, 2, 5, 20), (5, 20, 100)),
    "chain": ((1, 2, 5, 20), (5, 20, 100)),
}

# graphs on which columns collapse, with the parameters that are not the defaults
COLLAPSES = [("complete", {}), ("star", {}), ("six", {})]
COLLAPSES += [("clusters", {"degree": degree}) for degree in (200, 500, 1000)]
COLLAPSES += [("clusters", {"rounds": 20, "degree": 1000}), ("digits", {"degree": 1000})]

SEED_STDS = (1e-4, 1.0, 1e-310)


def name_of(graph, **asked):
    return "-".join([graph] + [f"{word}={number}" for word, number in sorted(asked.items())])


def seed_file(folder, graph, **asked):
    return pathlib.Path(folder) / f"seed-{name_of(graph, **asked)}.npy"


def all_runs():
    """Each run once: (graph, parameters)."""
    runs = [("digits", {}), ("clusters", {}), ("chain", {}), ("components", {}), ("largest", {})] + COLLAPSES
    for graph, (rounds, degrees) in GRIDS.items():
        runs += [(graph, {"rounds": r, "degree": d}) for r in rounds for d in degrees]
    runs += [("digits", {"seed_std": std}) for std in SEED_STDS]
    return list({name_of(graph, **asked): (graph, asked) for graph, asked in runs}.values())
