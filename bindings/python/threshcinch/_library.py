"""libthreshcinch.so: the header's records, where the library is found, and the floating-point environment of a call."""
from __future__ import annotations

import contextlib
import ctypes
import os
import pathlib
import platform
from ctypes import c_double, c_size_t, c_uint32, c_uint64

import numpy as np

# ---- the header's records


class Verdict(ctypes.Structure):
    _fields_ = [("number", c_uint64), ("place", c_uint64)]


class Params(ctypes.Structure):
    _fields_ = [("rounds", c_uint64), ("degree", c_uint64), ("seed_std", c_double)]


class Sizes(ctypes.Structure):
    _fields_ = [("verdict", Verdict), ("lengths", c_size_t * 11)]


class Asked(ctypes.Structure):
    _fields_ = [(name, c_size_t) for name in ("dims", "rows", "entries", "rounds", "degree")] + [("seed_std", c_double)]


class Progress(ctypes.Structure):
    _fields_ = [(name, c_size_t) for name in ("stage", "round", "pass", "column", "attempt", "current", "previous")] + [
        (name, c_double) for name in ("bound", "alpha", "before", "norm")
    ]


class Counts(ctypes.Structure):
    _fields_ = [(name, c_size_t) for name in ("passes", "refreshed", "zeroed", "isolated")]


class State(ctypes.Structure):
    _fields_ = [("asked", Asked), ("progress", Progress), ("counts", Counts)] + [
        *((name, c_double * 225) for name in ("totals", "matrix", "vectors")),
        ("order", c_size_t * 15),
    ]


class Answer(ctypes.Structure):
    _fields_ = [("verdict", Verdict), ("state", State)]


class Embedded(ctypes.Structure):
    _fields_ = [("verdict", Verdict), ("counts", Counts)]


class Written(ctypes.Structure):
    _fields_ = [("verdict", Verdict), ("length", c_size_t)]


class RunFile(ctypes.Structure):
    _fields_ = [
        ("verdict", Verdict),
        ("d", c_uint64),
        ("params", Params),
        *((name, c_size_t) for name in ("start_count", "column_count", "value_count")),
        *(("starts", c_uint64 * 65), ("columns", c_uint32 * 1024), ("values", c_double * 1024)),
    ]


class MatrixMarket(ctypes.Structure):
    _fields_ = [("verdict", Verdict), ("rows", c_size_t), ("entries", c_size_t)]


class MatrixMarketRoom(ctypes.Structure):
    _fields_ = [("verdict", Verdict), ("starts", c_size_t), ("entries", c_size_t)]


# Records cross by value, so a size that is not the header's would pass numbers at wrong places.
SIZES = {Verdict: 16, Params: 24, Sizes: 104, Asked: 48, Progress: 88, Counts: 32, State: 5688, Answer: 5704, Embedded: 48}
SIZES.update({Written: 24, RunFile: 12880, MatrixMarket: 32, MatrixMarketRoom: 32})
for _record, _size in SIZES.items():
    assert ctypes.sizeof(_record) == _size, f"{_record.__name__} has {ctypes.sizeof(_record)} bytes, not the header's {_size}"

# ---- the library

# the lent lists: inverse, v0, edge columns, edge weights, three blocks, partials, marks, output, Ritz record
MEMORY_KINDS = (np.float64,) * 2 + (np.uint32,) + (np.float64,) * 5 + (np.uint8,) + (np.float64,) * 2
MARKS = 8
OUTPUT = 9
RECORD = 10

# a list crosses as address and length; three lists of the graph, and these with the lent ones
_LIST = [ctypes.c_void_p, c_size_t]
_GRAPH = _LIST * 3
_LISTS = _GRAPH + _LIST * len(MEMORY_KINDS)
_FUNCTIONS = {
    "threshcinch_params_new": (Params, []),
    "threshcinch_lent_sizes": (Sizes, [c_uint64, c_uint64, c_size_t, c_size_t]),
    "threshcinch_calls_accepted": (c_size_t, [State]),
    "threshcinch_calls_owed": (c_size_t, [State]),
    "threshcinch_spectral_embedding": (Embedded, [c_uint64, Params] + _LISTS),
    "threshcinch_open": (Answer, [c_uint64, Params] + _LISTS),
    "threshcinch_chunk": (Answer, [State, c_size_t] + _LISTS),
    "threshcinch_close": (Answer, [State] + _LISTS),
    "threshcinch_write_run": (Written, [c_uint64, Params] + _GRAPH + _LIST),
    "threshcinch_read_run": (RunFile, _LIST),
    "threshcinch_write_answer": (Written, [Verdict, c_uint64, c_size_t, Counts] + _LIST * 2),
    "threshcinch_read_matrix_market": (MatrixMarket, _LIST + _GRAPH),
    "threshcinch_matrix_market_sizes": (MatrixMarketRoom, _LIST),
}
_NAME = "libthreshcinch.so"
# How the version of a library begins that has these records and functions in this form. Its soname ends so too.
SERIES = "0.3."


def _folder() -> str:
    """Where the library should be: as the caller says, or beside this file, as a wheel has it, or where library/build writes it."""
    given = os.environ.get("THRESHCINCH_LIB")
    if given:
        if not os.path.isdir(given):
            raise ImportError(f"threshcinch: THRESHCINCH_LIB must name the folder that holds {_NAME}, and {os.path.abspath(given)} is none")
        return os.path.abspath(given)
    here = pathlib.Path(__file__).resolve().parent
    if (here / _NAME).is_file():
        return str(here)
    return str(here.parents[2] / "target" / "library")


def _path() -> str:
    """The library's file, or an ImportError of one line."""
    folder = _folder()
    path = os.path.join(folder, _NAME)
    if not os.path.isfile(path):
        raise ImportError(f"threshcinch: {_NAME} is not in {folder}: run library/build, or name its folder in THRESHCINCH_LIB")
    return path


def _load(path: str, functions: dict) -> ctypes.CDLL:
    """A library with its functions declared, or an ImportError of one line."""
    try:
        library = ctypes.CDLL(path)
        for name, (answer, arguments) in functions.items():
            function = getattr(library, name)
            function.restype = answer
            function.argtypes = arguments
    except (OSError, AttributeError) as fault:
        raise ImportError(f"threshcinch: {fault}") from None
    return library


def _check_version(library: ctypes.CDLL) -> None:
    """Another form of a call would pass numbers at wrong places, and no name of a function tells."""
    try:
        version = (ctypes.c_char_p.in_dll(library, "threshcinch_version").value or b"").decode()
    except ValueError as fault:
        raise ImportError(f"threshcinch: {fault}") from None
    if not version.startswith(SERIES):
        raise ImportError(f"threshcinch: {library._name} is version {version}, and this package needs {SERIES}x")


if platform.machine() != "x86_64":
    raise ImportError(f"threshcinch: the library is for x86-64, and this machine is {platform.machine()}")
library = _load(_path(), _FUNCTIONS)
_check_version(library)

# ---- the floating-point environment


class Environment(ctypes.Structure):
    """C's fenv_t on x86-64: registers of the x87 unit, which the library does not use, and the control register of its arithmetic."""

    _fields_ = [("x87", ctypes.c_uint32 * 7), ("mxcsr", ctypes.c_uint32)]


# round to nearest, keep subnormal numbers, no exception traps; none was raised
_DEFAULT = 0x1F80
_ENVIRONMENT = ctypes.POINTER(Environment)
c = _load("libm.so.6", {"fegetenv": (ctypes.c_int, [_ENVIRONMENT]), "fesetenv": (ctypes.c_int, [_ENVIRONMENT])})


@contextlib.contextmanager
def default_arithmetic():
    """This thread's arithmetic as the library's proofs have it; afterwards as it was, with the flags of exceptions raised before.

    C's FE_DFL_ENV would not do: it lets the trap of subnormal operands stand.
    """
    found = Environment()
    c.fegetenv(found)
    default = Environment(found.x87, _DEFAULT)
    try:
        c.fesetenv(default)
        yield
    finally:
        c.fesetenv(found)


def call(name: str, *words):
    """A function of the library. All calls are made here, so that progress and whatever else is the caller's keeps its own arithmetic.

    Python's lock is left for the time of the call, so that other threads go on.
    """
    with default_arithmetic():
        return getattr(library, name)(*words)


# Stands in for the address of an empty list, since the library takes no NULL.
_NOTHING = np.zeros(1, np.uint64)


def words_of(lists) -> list[int]:
    """Addresses and lengths, as the library's functions take them. The caller keeps the lists alive."""
    words = []
    for array in lists:
        words += [(array if array.size else _NOTHING).ctypes.data, array.size]
    return words
