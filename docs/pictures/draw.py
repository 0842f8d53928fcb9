"""docs/pictures/draw.py FOLDER: draws the pictures beside this file from the graphs and seeds in FOLDER. Needs matplotlib and scikit-learn."""
import pathlib
import sys

import matplotlib

matplotlib.use("Agg")
import numpy as np
from exact import agreements, exact, graph_of, turned_like
from matplotlib import pyplot
from runs import seed_file
from scipy.sparse import csgraph
from sklearn import datasets, manifold

HERE = pathlib.Path(__file__).resolve().parent
COLOURS = pyplot.get_cmap("tab10")

pyplot.rcParams.update({"font.size": 9, "axes.titlesize": 10, "figure.dpi": 110})


def panels(count, width, height):
    return pyplot.subplots(1, count, figsize=(width, height), constrained_layout=True)


def save(figure, name):
    # neither a date nor a version in the file
    figure.savefig(HERE / name, metadata={"Software": None})
    pyplot.close(figure)
    print("docs/pictures/" + name)


def scatter_digits(axes, columns, title):
    digits = datasets.load_digits().target
    for digit in range(10):
        chosen = digits == digit
        axes.scatter(columns[chosen, 0], columns[chosen, 1], s=4, color=COLOURS(digit), label=str(digit), linewidths=0)
    axes.set_title(title)
    axes.set_xlabel("first column")
    axes.set_ylabel("second column")
    axes.ticklabel_format(style="sci", scilimits=(-2, 2))


def name_digits(figure, axes, room):
    """The colours' meaning, to the right of the panels, which take the rest of the room."""
    figure.legend(*axes.get_legend_handles_labels(), loc="center right", title="digit", markerscale=3)
    figure.get_layout_engine().set(rect=(0, 0, room, 1))


def draw_digits(folder):
    """The seed of the digits beside scikit-learn's embedding of the same graph."""
    seed = np.load(seed_file(folder, "digits"))
    theirs = manifold.spectral_embedding(graph_of(folder, "digits"), n_components=2, random_state=0)
    figure, (left, right) = panels(2, 9, 4.2)
    scatter_digits(left, seed, "Threshcinch's seed (defaults)")
    scatter_digits(right, turned_like(theirs, seed), "scikit-learn's spectral_embedding")
    name_digits(figure, left, 0.93)
    save(figure, "digits.png")


def draw_rounds(folder):
    """The digits again, with fewer rounds and a lower degree than the defaults."""
    figure, all_axes = panels(4, 12, 3.4)
    for axes, (rounds, degree) in zip(all_axes, ((1, 5), (1, 20), (2, 20), (5, 20))):
        first, second = agreements(folder, "digits", rounds=rounds, degree=degree)
        seed = np.load(seed_file(folder, "digits", rounds=rounds, degree=degree))
        seed = turned_like(seed, exact(folder, "digits"))
        scatter_digits(axes, seed, f"rounds {rounds}, degree {degree}\nagreement {first:.4f}, {second:.4f}")
    name_digits(figure, all_axes[0], 0.945)
    save(figure, "rounds.png")


def draw_chain(folder):
    """A chain's first column against the row's number: exactly half a wave."""
    figure, all_axes = panels(3, 11, 3.2)
    true = exact(folder, "chain")[:, 0]
    true = true / true.std() * 1e-4
    for axes, (rounds, degree) in zip(all_axes, ((5, 20), (20, 20), (5, 100))):
        seed = np.load(seed_file(folder, "chain", rounds=rounds, degree=degree))[:, :1]
        agreement = agreements(folder, "chain", rounds=rounds, degree=degree)[0]
        axes.plot(turned_like(seed, true[:, None]), linewidth=1.2, label="seed")
        axes.plot(true, "--", linewidth=1, color="black", label="eigenvector")
        axes.set_title(f"rounds {rounds}, degree {degree}: agreement {agreement:.4f}")
        axes.set_xlabel("row of the chain")
        axes.set_ylabel("first column")
        axes.ticklabel_format(axis="y", style="sci", scilimits=(-2, 2))
    all_axes[0].legend()
    save(figure, "chain.png")


def draw_components(folder):
    """Three heaps with no link between them: the seed of the whole, and the seed of the first heap alone."""
    figure, (left, right) = panels(2, 9, 3.8)
    seed = np.load(seed_file(folder, "components"))
    _, part_of = csgraph.connected_components(graph_of(folder, "components"))
    for part, rows in ((0, 300), (1, 200), (2, 100)):
        chosen = part_of == part
        left.scatter(seed[chosen, 0], seed[chosen, 1], s=30, color=COLOURS(part), label=f"heap of {rows}", alpha=0.5)
    lonely = part_of > 2
    left.scatter(seed[lonely, 0], seed[lonely, 1], s=40, color="black", marker="x", label="5 rows with no entries")
    left.set_title("the whole graph: one place for each heap")
    left.legend(loc="best")
    alone = np.load(seed_file(folder, "largest"))
    right.scatter(alone[:, 0], alone[:, 1], s=8, color=COLOURS(0))
    right.set_title("the heap of 300 alone")
    for axes in (left, right):
        axes.set_xlabel("first column")
        axes.set_ylabel("second column")
        axes.ticklabel_format(style="sci", scilimits=(-2, 2))
    save(figure, "components.png")


def main(folder):
    for draw in (draw_digits, draw_rounds, draw_chain, draw_components):
        draw(folder)


if __name__ == "__main__":
    if len(sys.argv) != 2:
        sys.exit("usage: draw.py FOLDER")
    main(sys.argv[1])
