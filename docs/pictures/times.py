"""docs/pictures/times.py FOLDER: the seed of the digits beside scikit-learn's embedding of the same graph: seconds, the best of five calls.

The machine should have nothing else to do. Needs x86-64, the Python package threshcinch and scikit-learn.
"""
import sys
import time

import threshcinch
from exact import graph_of
from sklearn import manifold


def best(call):
    seconds = []
    for _ in range(5):
        began = time.perf_counter()
        call()
        seconds.append(time.perf_counter() - began)
    return min(seconds)


def main(folder):
    graph = graph_of(folder, "digits")
    print(f"threshcinch, defaults, one thread: {best(lambda: threshcinch.spectral_embedding(graph, dims=2)):.3f} s")
    print(f"scikit-learn, arpack:              {best(lambda: manifold.spectral_embedding(graph, n_components=2, random_state=0)):.3f} s")


if __name__ == "__main__":
    if len(sys.argv) != 2:
        sys.exit("usage: times.py FOLDER")
    main(sys.argv[1])
