"""How far a run is, on a terminal; nothing elsewhere."""
from __future__ import annotations

import contextlib


@contextlib.contextmanager
def bar(stream):
    """What a run's progress(accepted, owed) draws on this stream: tqdm's bar, or a plain line where there is no tqdm, or nothing."""
    if not stream.isatty():
        yield None
        return
    try:
        from tqdm import tqdm
    except ImportError:
        with _plain(stream) as tell:
            yield tell
        return
    with tqdm(file=stream, unit=" calls", leave=False) as drawn:

        def tell(accepted: int, owed: int) -> None:
            drawn.total = accepted + owed
            drawn.update(accepted - drawn.n)

        yield tell


@contextlib.contextmanager
def _plain(stream):
    """A line of percents, written anew at each whole one."""
    drawn = [-1]

    def tell(accepted: int, owed: int) -> None:
        percent = 100 * accepted // max(accepted + owed, 1)
        if percent != drawn[0]:
            drawn[0] = percent
            stream.write(f"\r{percent:3d}% of {accepted + owed} calls")
            stream.flush()

    try:
        yield tell
    finally:
        stream.write("\r\x1b[K")
        stream.flush()
