"""The command `threshcinch`: a stored graph's seed, its run file, and digests of what is stored."""
from __future__ import annotations

import argparse
import contextlib
import os
import signal
import sys
import textwrap
from typing import Optional

import numpy as np

from . import __version__, _digest
from ._bar import bar
from ._digest import graph_digest, seed_digest
from ._files import Trouble, kind_of, read_graph, read_seed
from ._look import warnings_about, warnings_after
from ._refusal import TEXT, LoadError, Refusal
from ._run import Run
from ._save import written_whole
from ._text import write_run

ASKED = ("dims", "rounds", "degree", "seed_std")

STATUS = """\
Status: 0; 1 where a file, a graph or a saved run is refused, with words on standard error; 2 where the command's own words are not
understood; 130 or 143 where Ctrl-C or a request to end (SIGTERM) stopped the run."""

# Said of GRAPH by both commands that take one.
MARKET = """\
GRAPH may also be a Matrix Market file of the kind coordinate pattern symmetric, known by its banner or by a name that ends in .mtx. Each
entry becomes 1.0, off the diagonal it is placed in both rows, and a row's entries rise by column. The file is tested before all that is
asked of it: it is refused by 19 at its first line at fault, then by 2 for no rows and by 3 for too many rows or entries."""

SEED = f"""\
Writes the spectral seed of a stored graph, an n x D array of float64, as NumPy's .npy, and prints what was asked, what the run did, and
the digests of graph and seed.

GRAPH is what scipy.sparse.save_npz writes. CSR is taken as it stands, entries in their order; another format is converted by SciPy's
.tocsr(), with a word on standard error. Also on standard error, and never in the numbers: columns twice in a row, a graph that is not
symmetric, several components, zeroed columns, isolated rows that have entries. A row is isolated where the root of its degree is not above
1e-12, or is NaN; rows with no entries are among them.

{MARKET}

--record writes the Ritz record, which shows how the spectrum settled, as NumPy's .npy: an array of float64 with a row for each round, the bound
that the round's filter used and then its D + 8 Ritz values, falling, NaN last.

Ctrl-C leaves the run in a file, SEED.npy.held or what --save names. The same command with --resume goes on from there to the same bits, and
removes the file once the seed is written."""

RUN_FILE = f"""\
Writes a stored graph, D and the parameters as a run file to standard output: the seven lines that the program `seedrun` reads and makes a
seed of. Values and seed_std are there with all their bits, so that it is the seed that `threshcinch seed` writes.

GRAPH is what scipy.sparse.save_npz writes. CSR is taken as it stands, entries in their order; another format is converted by SciPy's
.tocsr(), with a word on standard error. Also on standard error, and never in the text: columns twice in a row, a graph that is not
symmetric, several components.

{MARKET}

A run file has at most 64 rows, 1,024 entries and 400 rounds. More is refused by 17, at the line that would have it, before all else but what
a file is refused by when it is read; then the graph and the numbers are tested as for a seed, 1 to 10. A refusal's number, place and words go
to standard error, and nothing to standard output."""

# What a line of a run file holds at most, for people: the library refuses more by that line.
LINE_SIZES = {2: "rounds, at most 400", 5: "at most 64 rows", 6: "at most 1,024 entries", 7: "at most 1,024 entries"}


def _let_go(stream) -> None:
    """What this standard file does not take goes nowhere: Python would try once more to write it at its end, and complain."""
    os.dup2(os.open(os.devnull, os.O_WRONLY), stream.fileno())


def say(words: str) -> None:
    """A line on standard error. Where that is closed or full, the status alone tells."""
    if sys.stderr is None:  # print would take standard output for it
        return
    try:
        print(f"threshcinch: {words}", file=sys.stderr)
    except OSError:
        _let_go(sys.stderr)


def _refused(words: str) -> int:
    say(words)
    return 1


# ---- the words of the command


def _threads(word: str) -> int:
    number = int(word)
    if number < 1:
        raise ValueError(word)
    return number


_threads.__name__ = "number of threads"  # argparse names it so where the word is not understood


def _add_seed(commands) -> None:
    form = argparse.RawDescriptionHelpFormatter
    parser = commands.add_parser("seed", help="the seed of a stored graph", description=SEED, epilog=_epilog(), formatter_class=form)
    parser.set_defaults(work=seed)
    parser.add_argument("graph", metavar="GRAPH", help="the graph, as scipy.sparse.save_npz writes it, or a Matrix Market file")
    parser.add_argument("-o", "--output", metavar="SEED.npy", required=True, help="where the seed goes")
    parser.add_argument("--dims", type=int, metavar="D", help="numbers a row of the seed has, 1 to 7 (2)")
    _add_params(parser, "1,000")
    parser.add_argument("--threads", type=_threads, default=1, metavar="N", help="threads that do the work (1); the bits are the same")
    parser.add_argument("--record", metavar="FILE.npy", help="where each round's bound and Ritz values go (nowhere)")
    parser.add_argument("--save", metavar="FILE", help="where Ctrl-C leaves the run (SEED.npy.held)")
    parser.add_argument("--resume", action="store_true", help="go on from that file")


def _add_params(parser, most_rounds: str) -> None:
    parser.add_argument("--rounds", type=int, metavar="N", help=f"rounds of refinement, 1 to {most_rounds} (5)")
    parser.add_argument("--degree", type=int, metavar="N", help="the filter's degree, 1 to 1,000 (20)")
    parser.add_argument("--seed-std", type=float, metavar="X", help="standard deviation of each of the seed's columns (1e-4)")


def _add_run_file(commands) -> None:
    form = argparse.RawDescriptionHelpFormatter
    parser = commands.add_parser("run-file", help="a stored graph as a run file", description=RUN_FILE, epilog=STATUS, formatter_class=form)
    parser.set_defaults(work=run_file)
    parser.add_argument("graph", metavar="GRAPH", help="the graph, as scipy.sparse.save_npz writes it, or a Matrix Market file")
    parser.add_argument("--dims", type=int, metavar="D", required=True, help="numbers a row of the seed has, 1 to 7")
    _add_params(parser, "400")


def _add_digest(commands) -> None:
    form = argparse.RawDescriptionHelpFormatter
    about = "Prints a line for each stored graph (.npz, .mtx) and seed (.npy): 'graph' or 'seed', its digest, and the file's name."
    parser = commands.add_parser("digest", help="digests of stored graphs and seeds", description=about, epilog=_epilog(), formatter_class=form)
    parser.set_defaults(work=digest)
    parser.add_argument("files", metavar="FILE", nargs="+")


def _epilog() -> str:
    return textwrap.dedent(_digest.__doc__ or "") + "\n" + STATUS


def _parser() -> argparse.ArgumentParser:
    parser = argparse.ArgumentParser(prog="threshcinch", description="The spectral seed of a neighbour graph, bit for bit the same everywhere.")
    parser.add_argument("--version", action="version", version=f"threshcinch {__version__}")
    commands = parser.add_subparsers(metavar="COMMAND", required=True)
    _add_seed(commands)
    _add_run_file(commands)
    _add_digest(commands)
    return parser


# ---- what goes in and out


def _given(asked) -> dict:
    """Of D and the parameters those that were named; the others have the library's defaults."""
    return {name: getattr(asked, name) for name in ASKED if getattr(asked, name) is not None}


def _graph_of(path: str):
    graph, word = read_graph(path)
    if word:
        say(word)
    return graph


def _warn(lines: list[str]) -> None:
    for line in lines:
        say(f"warning: {line}")


@contextlib.contextmanager
def _output():
    """For what is written to standard output. Where that does not take it, it is said in a line."""
    try:
        yield
    except OSError as fault:
        _let_go(sys.stdout)
        why = "its reader has gone" if isinstance(fault, BrokenPipeError) else fault.strerror
        raise Trouble(f"standard output: {why}") from fault


# ---- seed


def _check_place(path: str) -> None:
    """That a file can be written there is known before the work, not after it."""
    folder = os.path.dirname(os.path.abspath(path))
    if not os.path.isdir(folder) or not os.access(folder, os.W_OK):
        raise Trouble(f"{path}: {folder} is no folder that can be written to")
    if os.path.isdir(path):
        raise Trouble(f"{path}: is a folder")


def _check_places(*paths: str) -> None:
    """The same of each, and that no two are one file."""
    for path in paths:
        _check_place(path)
    if len({os.path.realpath(path) for path in paths}) < len(paths):
        raise Trouble(f"one file cannot be two of these: {', '.join(paths)}")


def _write_array(path: str, array: np.ndarray) -> None:
    with written_whole(path) as file:
        np.save(file, array)


def _begin(graph, asked, save: str) -> Run:
    """The run at its opening, or where it was left."""
    given = _given(asked)
    if not asked.resume:
        if os.path.exists(save):
            say(f"{save} holds a run that was stopped; --resume would go on from it")
        return Run.open(graph, **given)
    try:
        run = Run.load(graph, save)
    except LoadError as fault:
        raise Trouble(f"{save}: {fault}") from fault
    for name, number in given.items():
        if run.asked[name] != number:
            raise Trouble(f"{save}: the run was opened with {name} {run.asked[name]}, and {number} is asked now")
    return run


@contextlib.contextmanager
def _stopping(run: Run):
    """Ctrl-C, or a request to end, stops the run and not this process. Answers the list of what came. What was ignored stays so."""
    came: list[int] = []

    def stop(number, frame) -> None:
        came.append(number)
        run.stop()

    numbers = [number for number in (signal.SIGINT, signal.SIGTERM) if signal.getsignal(number) is not signal.SIG_IGN]
    before = {number: signal.signal(number, stop) for number in numbers}
    try:
        yield came
    finally:
        for number, handler in before.items():
            signal.signal(number, handler)


def _drive(run: Run, threads: int, save: str) -> Optional[int]:
    """Does the run: nothing, or the number of the signal that stopped it; it is then saved."""
    with _stopping(run) as came:
        with bar(sys.stderr) as tell:
            ended = run.drive(threads, tell)
        if ended:
            return None
        run.save(save)
        say(f"stopped, and left in {save}: --resume goes on from there")
        return came[0]


def _print_run(run: Run) -> None:
    asked, counts = run.asked, run.counts
    print(
        f"{asked['rows']} rows, {asked['entries']} entries; "
        f"{asked['dims']} numbers a row, {asked['rounds']} rounds of degree {asked['degree']}, seed_std {asked['seed_std']!r}"
    )
    print(
        f"{counts.passes} operator passes, {counts.refreshed} columns refreshed, "
        f"{counts.zeroed} columns zeroed, {counts.isolated} isolated rows"
    )


def seed(asked) -> int:
    save = asked.save or asked.output + ".held"
    _check_places(asked.output, save, *([asked.record] if asked.record else []))
    graph = _graph_of(asked.graph)
    run = _begin(graph, asked, save)
    _warn(warnings_about(graph))
    stopped = _drive(run, asked.threads, save)
    if stopped is not None:
        return 128 + stopped
    if asked.record:
        _write_array(asked.record, run.ritz_record)
    _write_array(asked.output, run.seed)
    if asked.resume:
        os.unlink(save)
    _warn(warnings_after(graph, run.counts))
    with _output():
        _print_run(run)
        print("graph", run.graph_digest, asked.graph)
        print("seed", seed_digest(run.seed), asked.output)
    return 0


# ---- run-file


def _run_text(graph, asked) -> bytes:
    try:
        return write_run(graph, **_given(asked))
    except Refusal as refusal:
        if refusal.number != TEXT:
            raise
        raise Trouble(f"refusal {TEXT} at line {refusal.place} ({LINE_SIZES[refusal.place]}): {refusal.words}") from refusal


def run_file(asked) -> int:
    graph = _graph_of(asked.graph)
    left = memoryview(_run_text(graph, asked))
    _warn(warnings_about(graph))
    with _output():
        while left:  # an unbuffered file may take less than it is given
            left = left[sys.stdout.buffer.write(left) :]
    return 0


# ---- digest


def _digest_of(path: str) -> str:
    kind = kind_of(path)
    if kind == "seed":
        return f"seed {seed_digest(read_seed(path))} {path}"
    return f"graph {graph_digest(_graph_of(path))} {path}"


def digest(asked) -> int:
    status = 0
    for path in asked.files:
        try:
            line = _digest_of(path)
        except (Trouble, OSError) as fault:  # they name the file
            status = _refused(str(fault))
        except (Refusal, TypeError, ValueError) as fault:
            status = _refused(f"{path}: {fault}")
        else:
            with _output():
                print(line)
    return status


# ---- the command


def _work(asked) -> int:
    """The command's work and status; whatever keeps it from its end is said in a line."""
    try:
        if sys.stdout is None:
            raise Trouble("standard output is closed")
        status = asked.work(asked)
        with _output():
            sys.stdout.flush()
        return status
    except MemoryError:
        return _refused("this machine has not the memory")
    except (Refusal, Trouble, OSError, TypeError, ValueError) as fault:
        return _refused(str(fault))
    except KeyboardInterrupt:
        say("stopped before the run was open, or after its end: nothing is left")
        return 128 + signal.SIGINT


def main(words: Optional[list[str]] = None) -> int:
    return _work(_parser().parse_args(words))
