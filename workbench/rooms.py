"""Folders of a run, which leave nothing whatever ends it."""
import contextlib
import signal
import tempfile
from typing import Iterator

SIGNALS = (signal.SIGINT, signal.SIGTERM, signal.SIGHUP)


@contextlib.contextmanager
def room() -> Iterator[str]:
    """A folder that is removed at the end: a signal waits while it is made or removed."""
    mask = signal.pthread_sigmask(signal.SIG_BLOCK, SIGNALS)
    try:
        with tempfile.TemporaryDirectory(prefix="ask-") as folder:
            try:
                signal.pthread_sigmask(signal.SIG_SETMASK, mask)
                yield folder
            finally:
                signal.pthread_sigmask(signal.SIG_BLOCK, SIGNALS)
    finally:
        signal.pthread_sigmask(signal.SIG_SETMASK, mask)
