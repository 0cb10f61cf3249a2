"""The pool of processes that a sweep uses if it is given no executor."""

from __future__ import annotations

import ctypes
import multiprocessing
import os
import signal
from concurrent.futures import ProcessPoolExecutor
from typing import Any

from .jobs import RUNNING

# The option of prctl for the signal that a process gets when its parent ends.
_SET_SIGNAL_OF_PARENTS_END = 1


def processors() -> int:
    """Returns the number of processors that this process may use."""
    if hasattr(os, "sched_getaffinity"):
        return len(os.sched_getaffinity(0))
    return os.cpu_count() or 1


def _end(*_: Any) -> None:
    """Ends a worker and the program that it runs."""
    for process in RUNNING:
        process.kill()
    os._exit(1)


def _begin(parent: int) -> None:
    """Makes a worker end with its parent, however that ends. Otherwise it would wait forever."""
    signal.signal(signal.SIGTERM, _end)
    if signal.getsignal(signal.SIGINT) is not signal.SIG_IGN:
        signal.signal(signal.SIGINT, _end)
    try:
        ctypes.CDLL(None).prctl(_SET_SIGNAL_OF_PARENTS_END, signal.SIGTERM)
    except (OSError, AttributeError):
        pass  # not Linux
    if os.getppid() != parent:
        _end()


def make_pool(workers: int) -> ProcessPoolExecutor:
    """Returns a pool of processes that begin as copies of this one, so a script needs no
    `if __name__ == "__main__"`."""
    forks = "fork" in multiprocessing.get_all_start_methods()
    context = multiprocessing.get_context("fork" if forks else None)
    return ProcessPoolExecutor(workers, context, _begin, (os.getpid(),))
