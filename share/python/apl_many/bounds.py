"""Bounds on what a block of code takes: seconds, and memory of this process."""
from __future__ import annotations

import resource
import signal
from contextlib import contextmanager
from typing import Iterator

PAGE = resource.getpagesize()


class TimeOver(Exception):
    """The seconds of a block are over."""


@contextmanager
def at_most_seconds(seconds: float) -> Iterator[None]:
    """Raises TimeOver in the block, from a signal handler, when it has taken so many seconds. For the main thread."""

    def strike(_number: int, _frame: object) -> None:
        raise TimeOver

    signal.signal(signal.SIGALRM, strike)
    signal.setitimer(signal.ITIMER_REAL, seconds)
    try:
        yield
    finally:
        signal.setitimer(signal.ITIMER_REAL, 0)


@contextmanager
def at_most_memory(more: int) -> Iterator[None]:
    """Has allocations in the block fail, as MemoryError, where this process would have so many bytes more than now."""
    soft, hard = resource.getrlimit(resource.RLIMIT_AS)
    with open("/proc/self/statm", encoding="ascii") as file:
        bound = int(file.read().split()[0]) * PAGE + more
    resource.setrlimit(resource.RLIMIT_AS, (bound if hard == resource.RLIM_INFINITY else min(bound, hard), hard))
    try:
        yield
    finally:
        resource.setrlimit(resource.RLIMIT_AS, (soft, hard))
