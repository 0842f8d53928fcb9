"""Graphs beside SciPy's mmwrite and mmread; oracle/markets and oracle/bench/markets run it.

    write FROM COUNT                  files that mmwrite wrote, as a stream on standard output, each behind its length
    written FROM COUNT GRAPHS         what the library read in these files, against the graphs they were written from
    read FILES GRAPHS                 what the library read in other files, against what mmread reads in them
    make ENTRIES ORDER PATH           a file with so many entries, rising or in random order
    table DRIVER RUNS PATH...         the times of the library and of mmread(..).tocsr() on these files, and that the graphs are the same

graphs.c says what FILES and GRAPHS hold. Status 0: all are the same. 1: some differ, and it is said. 2: it could not be done."""

import io
import struct
import subprocess
import sys
import time

import numpy as np
import scipy
import scipy.io
import scipy.sparse as sparse

AT_END = 2**64 - 1
MOST_SHOWN = 10
MOST_ROWS = 1048576


def fail(words):
    print(f"beside_scipy: {words}", file=sys.stderr)
    sys.exit(2)


# ---- the streams


def take(stream, length):
    data = stream.read(length)
    if len(data) != length:
        fail("a stream ends too soon")
    return data


def take_numbers(stream, count, kind="<u8"):
    return np.frombuffer(take(stream, count * np.dtype(kind).itemsize), dtype=kind)


def take_graph(stream):
    """The verdict, and the graph or None."""
    number, place, rows, entries = (int(x) for x in take_numbers(stream, 4))
    if number:
        return (number, place), None
    starts = take_numbers(stream, rows + 1)
    columns = take_numbers(stream, entries, "<u4")
    values = take_numbers(stream, entries, "<f8")
    return (number, place), (rows, starts, columns, values)


def put_file(data, out):
    out.write(struct.pack("<Q", len(data)))
    out.write(data)


def files_of(path):
    with open(path, "rb") as stream:
        while True:
            (length,) = struct.unpack("<Q", take(stream, 8))
            if length == AT_END:
                break
            yield take(stream, length)
        if stream.read(1):
            fail("the files go on behind their end")


# ---- graphs, made by number


def rows_of(random):
    kind = random.integers(200)
    if kind == 0:
        return int(random.choice([MOST_ROWS - 1, MOST_ROWS, 65536, 100000]))
    return int(random.integers(1, 13) if kind < 80 else random.integers(1, 400))


def graph_of(number):
    """A symmetric pattern of any form that SciPy has, with any values, which a pattern's file does not tell."""
    random = np.random.default_rng([5, number])
    n = rows_of(random)
    count = int(random.integers(0, 4 * min(n, 500) + 1)) if random.integers(8) else 0
    row, column = random.integers(0, n, count), random.integers(0, n, count)
    if random.integers(6) == 0:
        row = column
    graph = sparse.coo_matrix((np.ones(count), (row, column)), shape=(n, n))
    graph = graph.tocsr() + graph.T.tocsr()
    if n <= 12 and random.integers(6) == 0:
        graph = sparse.csr_matrix(np.ones((n, n)))
    graph.data[:] = random.choice([1.0, 2.0, 0.25, -3.0])
    form = random.integers(3)
    if form == 0:
        return graph
    return graph.tocsc() if form == 1 else shuffled(graph.tocoo(), random)


def shuffled(graph, random):
    order = random.permutation(graph.nnz)
    return sparse.coo_matrix((graph.data[order], (graph.row[order], graph.col[order])), shape=graph.shape)


def written_by_scipy(number):
    comment = ["", "a comment", "two\nlines", "% of it"][number % 4]
    out = io.BytesIO()
    scipy.io.mmwrite(out, graph_of(number), comment=comment, field="pattern", symmetry="symmetric")
    return out.getvalue()


# ---- what is the same


def difference(graph, due):
    """What differs between the library's graph and SciPy's, or None."""
    if graph is None:
        return "it is refused"
    due = sparse.csr_matrix(due)
    due.sum_duplicates()
    due.sort_indices()
    rows, starts, columns, values = graph
    if (rows, rows) != due.shape:
        return f"{rows} rows, not {due.shape}"
    if not np.array_equal(starts, due.indptr.astype("u8")):
        return "other starts"
    if not np.array_equal(columns, due.indices.astype("u4")):
        return "other columns"
    if not np.array_equal(values.view("u8"), np.ones(due.nnz).view("u8")):
        return "a value is not 1.0"
    return None


class Tally:
    def __init__(self):
        self.files = self.entries = self.differences = 0

    def compare(self, name, verdict, graph, due):
        self.files += 1
        self.entries += due.nnz
        what = difference(graph, due)
        if what is not None:
            self.differ(f"{name}: {what}; the verdict is {verdict[0]} at {verdict[1]}")

    def refused(self, name, why):
        self.files += 1
        self.differ(f"{name}: SciPy does not read it: {why}")

    def differ(self, words):
        self.differences += 1
        if self.differences <= MOST_SHOWN:
            print(f"DIFFERENCE {words}")

    def end(self, words):
        print(f"{words}: {self.files} files, {self.entries} entries; differences: {self.differences}")
        return 1 if self.differences else 0


# ---- the commands


def write(first, count):
    for number in range(int(first), int(first) + int(count)):
        put_file(written_by_scipy(number), sys.stdout.buffer)
    sys.stdout.buffer.write(struct.pack("<Q", AT_END))
    sys.stdout.buffer.flush()
    return 0


def written(first, count, graphs):
    tally = Tally()
    with open(graphs, "rb") as stream:
        for number in range(int(first), int(first) + int(count)):
            verdict, graph = take_graph(stream)
            due = graph_of(number)
            due.data = np.ones(len(due.data))
            tally.compare(f"mmwrite's file {number}", verdict, graph, due)
        if stream.read(1):
            fail("the graphs go on behind the last file")
    return tally.end(f"written by SciPy {scipy.__version__}'s mmwrite, read by the library")


def read(files, graphs):
    tally = Tally()
    with open(graphs, "rb") as stream:
        for i, data in enumerate(files_of(files)):
            verdict, graph = take_graph(stream)
            try:
                due = scipy.io.mmread(io.BytesIO(data)).tocsr()
            except Exception as why:  # whatever it says, it has not read what it should
                tally.refused(f"our file {i}", why)
                continue
            tally.compare(f"our file {i}", verdict, graph, due)
        if stream.read(1):
            fail("the graphs go on behind the last file")
    return tally.end(f"files of our own, read by the library and by SciPy {scipy.__version__}'s mmread")


def make(entries, order, path):
    """Of 15 entries a row, rising by column and row as mmwrite does it, or in random order."""
    count, random = int(entries), np.random.default_rng(5)
    n = max(count // 15, 2)
    row, column = random.integers(0, n, 2 * count), random.integers(0, n, 2 * count)
    low, high = np.minimum(row, column), np.maximum(row, column)
    places = np.unique(low * n + high)
    places = np.sort(random.permutation(places)[:count])
    if order == "random":
        places = random.permutation(places)
    table = np.column_stack((places % n + 1, places // n + 1))
    with open(path, "w", encoding="ascii") as out:
        out.write(f"%%MatrixMarket matrix coordinate pattern symmetric\n{n} {n} {len(table)}\n")
        np.savetxt(out, table, fmt="%d %d")
    return 0


def least_seconds(runs, call):
    best = None
    for _ in range(runs):
        began = time.perf_counter()
        answer = call()
        took = time.perf_counter() - began
        best = took if best is None else min(best, took)
    return best, answer


def graph_by(driver, data):
    stream = struct.pack("<Q", len(data)) + data + struct.pack("<Q", AT_END)
    answer = subprocess.run([driver], input=stream, stdout=subprocess.PIPE, check=True).stdout
    return take_graph(io.BytesIO(answer))


def table(driver, runs, *paths):
    print(f"| file | MB | entries as placed | library | with reading the file | SciPy {scipy.__version__} | ratio |")
    print("|---|---|---|---|---|---|---|")
    worst = 0
    for path in paths:
        said = subprocess.run([driver, "--time", runs, path], stdout=subprocess.PIPE, check=True).stdout
        call, whole = (float(x) for x in said.split())
        theirs, graph = least_seconds(max(1, int(runs) // 4), lambda: scipy.io.mmread(path).tocsr())
        with open(path, "rb") as file:
            data = file.read()
        verdict, ours = graph_by(driver, data)
        what = difference(ours, graph)
        name = path.rsplit("/", 1)[-1].rsplit(".", 1)[0]
        print(f"| {name} | {len(data) / 1e6:.1f} | {graph.nnz} | {call:.3f} | {whole:.3f} | {theirs:.3f} | {whole / theirs:.3f} |", flush=True)
        if what:
            print(f"DIFFERENCE {name}: {what}; the verdict is {verdict[0]} at {verdict[1]}")
            worst = 1
    return worst


COMMANDS = {"write": write, "written": written, "read": read, "make": make, "table": table}

if __name__ == "__main__":
    if len(sys.argv) < 2 or sys.argv[1] not in COMMANDS:
        fail("words that are not understood")
    sys.exit(COMMANDS[sys.argv[1]](*sys.argv[2:]))
