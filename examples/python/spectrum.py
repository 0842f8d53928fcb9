"""How the spectrum of a graph settled, round by round: rounds across, Ritz values up, as letters and, with --png, as an image.

A RECORD.npy is what `threshcinch seed GRAPH.npz -o SEED.npy --record RECORD.npy` writes. Without one two samples are computed: an easy one, a chain of
60 rows, and a difficult one, a chain of 1,000 rows, whose eigenvalues lie so close together that five rounds do not part them."""
import argparse
import sys

import numpy as np

LINES, COLUMNS, WIDEST, MOST_ROUNDS = 20, 66, 13, 12
# A value that moved by less than this share of its distance to the nearest other value is called settled, and so is one that moved by no more
# than rounding does: where values tie there is no distance.
SHARE = 0.01
ROUNDING = 1e-13
# What is nearer to 1 than this is drawn as 1, a little above the rest, which would else be crowded together below.
ONE = 3e-13
LEAST_MOVE = 1e-16


# ---- what is drawn


class Spectrum:
    """A record with its name: the bound and the Ritz values of each round, and what the last round did to them."""

    def __init__(self, name, record):
        self.name = name
        record = np.where(np.isfinite(record), record, np.nan)  # what overflowed is not drawn
        self.bounds, self.values = record[:, 0], record[:, 1:]
        self.rounds, count = self.values.shape
        self.dims = count - 8
        self.marks = [chr(ord("A" if place < self.dims else "a") + place) for place in range(count)]
        before = self.values[-2] if self.rounds > 1 else np.full(count, np.nan)
        self.moved = self.values[-1] - before
        steps = np.abs(np.diff(self.values[-1]))
        self.distance = np.fmin(np.append(np.inf, steps), np.append(steps, np.inf))
        below = record[1 - record > ONE]
        self.top = (nines(below).max() if below.size else 0.0) + 0.5

    def heights(self, values):
        """Where values are drawn: by their nines. NaN stays NaN."""
        return np.where(1 - values <= ONE, self.top, nines(np.minimum(values, 1 - ONE)))

    def label(self, height):
        """The value of that height, with a digit more than it has nines."""
        if height == self.top:
            return "1"
        return f"{1 - 10.0**-height:.{max(int(np.ceil(height)) + 1, 2)}f}"

    def settled(self, place):
        return abs(self.moved[place]) < max(SHARE * self.distance[place], ROUNDING)

    def word(self, place):
        """What is said of one of the seed's own values; nothing of the others, and nothing after one round."""
        if place >= self.dims or self.rounds == 1:
            return ""
        return "settled" if self.settled(place) else "NOT SETTLED"

    def verdict(self):
        if self.rounds == 1:
            return "One round does not tell whether a value has settled"
        moving = [self.marks[place] for place in range(self.dims) if not self.settled(place)]
        return f"{listed(moving)} had not settled" if moving else "All of the seed's columns had settled"


def nines(values):
    """How many nines a value has: 0.9 is 1, 0.99 is 2. The values that matter crowd below 1, and so are drawn apart."""
    return -np.log10(1 - values)


def listed(words):
    return " and ".join(filter(None, [", ".join(words[:-1]), words[-1]]))


# ---- letters


def shown_rounds(rounds):
    """All, or as many as there is room for: the first, the last two, and others evenly between."""
    if rounds <= MOST_ROUNDS:
        return list(range(rounds))
    return sorted({*np.linspace(0, rounds - 2, MOST_ROUNDS - 1).round().astype(int).tolist(), rounds - 1})


def cell(marks, has_bound, width):
    """A round's part of a line: the marks of the values that lie there, the bound behind them. A + is for marks that do not fit."""
    text = "".join(marks)
    text = text if len(text) < width else text[: width - 2] + "+"
    return text.ljust(width - 1, "=" if has_bound else " ") + " "


def nearest(steps, drawn):
    """For each height the step that it is nearest to; none, -1, for NaN."""
    away = np.abs(drawn[..., None] - steps)
    return np.where(np.isnan(drawn), -1, away.argmin(axis=-1))


def letters(spectrum):
    """The picture: a line for each step of height, labelled with its value."""
    rounds = shown_rounds(spectrum.rounds)
    width = min(WIDEST, COLUMNS // len(rounds))
    drawn = spectrum.heights(np.column_stack([spectrum.bounds, spectrum.values]))[rounds]
    low, high = np.nanmin(drawn), np.nanmax(drawn)
    steps = np.linspace(low, high, LINES) if low < high else np.array([low])
    yield "Ritz value"
    for line in reversed(range(len(steps))):
        cells = []
        for bound, *values in nearest(steps, drawn):
            cells.append(cell([mark for mark, value in zip(spectrum.marks, values) if value == line], bound == line, width))
        yield f"{spectrum.label(steps[line]):>16} | {''.join(cells)}".rstrip()
    yield " " * 17 + "+" + "-" * (width * len(rounds))
    yield "round".rjust(16) + "   " + "".join(str(number + 1).ljust(width) for number in rounds).rstrip()


def table(spectrum):
    """What the last round did to each value. A value that was not finite before, or not there, has no move."""
    yield "  in the last round    moved in it    nearest other value"
    for place, mark in enumerate(spectrum.marks):
        value, moved, distance = spectrum.values[-1, place], spectrum.moved[place], spectrum.distance[place]
        if np.isnan(value):
            yield f"  {mark}  not finite"
        else:
            move = "-" if np.isnan(moved) else f"{moved:+.1e}"
            yield f"  {mark} {value:15.12f}    {move:>11}    {distance:.1e} away   {spectrum.word(place)}".rstrip()


def explained(spectrum):
    own, others = spectrum.marks[: spectrum.dims], spectrum.marks[spectrum.dims :]
    yield f"The seed's columns have {listed(own)}; {others[0]} to {others[-1]} are further values, which help to find these. ==== is the bound, below which"
    yield "the round's filter damps. Settled: moved in the last round by less than a hundredth of the distance to the nearest other value."
    moving = "NOT SETTLED" in map(spectrum.word, range(spectrum.dims))
    yield spectrum.verdict() + (": take more rounds, or a higher degree, before you trust what the seed shows." if moving else ".")
    gone = np.count_nonzero(np.isnan(spectrum.values))
    if gone:
        yield f"Not drawn, as they are not finite: {gone} of {spectrum.values.size} values."


def write_letters(spectrum):
    print("\n".join([spectrum.name, "", *letters(spectrum), "", *table(spectrum), "", *explained(spectrum), ""]))


# ---- an image


def ticks_between(low, high):
    """Heights of round values, 0.9 and 0.99 and others between them, at most ten."""
    for parts in ((1, 2, 5), (1, 3), (1,)):
        found = [height for count in range(17) for part in parts if low <= (height := count - np.log10(part)) <= high]
        if len(found) <= 10:
            break
    return found


def apart(places, least):
    """Falling places, each moved down as far as it must be to lie so far below the one before."""
    moved = []
    for place in places:
        moved.append(min(place, moved[-1] - least) if moved else place)
    return moved


def name_lines(axes, spectrum):
    """Each value's letter behind its line."""
    low, high = axes.get_ylim()
    there = np.flatnonzero(~np.isnan(spectrum.values[-1]))
    for place, height in zip(there, apart(spectrum.heights(spectrum.values[-1, there]), 0.035 * (high - low))):
        axes.annotate(spectrum.marks[place], (spectrum.rounds, height), (15, 0), textcoords="offset points", va="center", fontsize=8)


def name_below(axes):
    """What is what, where it covers nothing."""
    axes.legend(loc="upper center", bbox_to_anchor=(0.5, -0.15), ncol=3, fontsize=8)


def draw_rounds(axes, spectrum):
    rounds = np.arange(1, spectrum.rounds + 1)
    count = len(spectrum.marks)
    for place in [*range(spectrum.dims, count), *range(spectrum.dims)]:  # the seed's own lie above the others
        own = {"color": f"C{place}", "linewidth": 2.2, "label": f"{spectrum.marks[place]}: column {place + 1} of the seed"}
        line = own if place < spectrum.dims else {"color": "0.65", "linewidth": 0.9}
        axes.plot(rounds, spectrum.heights(spectrum.values[:, place]), marker="o", markersize=4, **line)
    axes.plot(rounds, spectrum.heights(spectrum.bounds), "_", color="black", markersize=22, markeredgewidth=2, label="bound: below it the filter damps")
    axes.margins(x=0.09)  # the letters behind the lines need room
    name_lines(axes, spectrum)
    low, high = axes.get_ylim()
    ticks = ticks_between(low, min(high, spectrum.top - 0.2)) + ([spectrum.top] if spectrum.top < high else [])
    axes.set_yticks(ticks, [spectrum.label(tick).rstrip("0").rstrip(".") for tick in ticks])
    axes.set_xticks([number + 1 for number in shown_rounds(spectrum.rounds)])
    axes.set(title=spectrum.name, xlabel="round", ylabel="Ritz value")
    axes.grid(alpha=0.25)
    name_below(axes)


def draw_moved(axes, spectrum):
    """Each value's last move beside the distance that it must be small against."""
    places = np.arange(len(spectrum.marks))
    colours = [f"C{place}" if place < spectrum.dims else "0.65" for place in places]
    axes.barh(places, np.abs(spectrum.moved), color=colours, left=LEAST_MOVE, label="moved in the last round")
    axes.plot(spectrum.distance, places, "|", color="black", markersize=13, markeredgewidth=2, label="distance to the nearest other value")
    axes.set_xscale("log")
    axes.set_xlim(LEAST_MOVE, 1)
    axes.set_yticks(places, spectrum.marks)
    axes.invert_yaxis()
    axes.set(title=spectrum.verdict(), xlabel="how far each value moved in the last round", ylabel="Ritz value")
    name_below(axes)


def write_image(path, spectra):
    import matplotlib

    matplotlib.use("Agg")
    from matplotlib import pyplot

    size, widths = (11, 4.6 * len(spectra)), {"width_ratios": (3, 2)}
    figure, rows = pyplot.subplots(len(spectra), 2, figsize=size, squeeze=False, constrained_layout=True, gridspec_kw=widths)
    for (left, right), spectrum in zip(rows, spectra):
        draw_rounds(left, spectrum)
        draw_moved(right, spectrum)
    # neither a date nor a version in the file
    figure.savefig(path, dpi=100, format="png", metadata={"Software": None})


# ---- the program


def samples():
    """The easy one and the difficult one."""
    import threshcinch
    from scipy import sparse

    rounds, degree = 5, 20
    for word, rows in (("easy", 60), ("difficult", 1000)):
        ones = np.ones(rows - 1)
        graph = sparse.diags([ones, ones], [-1, 1], format="csr")  # each row is linked with the next one
        answer = threshcinch.spectral_embedding(graph, dims=2, rounds=rounds, degree=degree)
        yield Spectrum(f"{word}: a chain of {rows:,} rows, {rounds} rounds of degree {degree}", answer.ritz_record)


def stored(path):
    record = np.load(path, allow_pickle=False)
    if record.ndim != 2 or record.dtype != np.float64 or not record.shape[0] or not 10 <= record.shape[1] <= 16:
        raise ValueError(f"{path}: not a Ritz record, a float64 array of rounds x (D + 9)")
    if not np.isfinite(record).any():
        raise ValueError(f"{path}: no number of it is finite")
    return Spectrum(path, record)


def main():
    parser = argparse.ArgumentParser(prog="examples/python/run spectrum", description=__doc__, formatter_class=argparse.RawDescriptionHelpFormatter)
    parser.add_argument("records", metavar="RECORD.npy", nargs="*", help="records to draw, instead of the samples")
    parser.add_argument("--png", metavar="FILE", help="an image of them all, in this file too; needs matplotlib")
    asked = parser.parse_args()
    try:
        spectra = [stored(path) for path in asked.records] or list(samples())
        for spectrum in spectra:
            write_letters(spectrum)
        if asked.png:
            write_image(asked.png, spectra)
    except (ImportError, OSError, ValueError) as fault:
        sys.exit(f"examples/python/spectrum.py: {fault}")


if __name__ == "__main__":
    main()
