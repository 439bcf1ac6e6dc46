"""What one thread at a time uses, also in a process that was forked while another thread used it."""

from __future__ import annotations

import os
import threading
import weakref


class Locked:
    """What one thread at a time uses, and no handler of a signal while that thread copies from it."""

    def __init__(self) -> None:
        self._lock = threading.RLock()
        self._is_copying = False
        _all.add(self)

    def _after_fork(self) -> None:
        """In the new process: a lock that another thread has there is never let go, since that thread is not there. A call keeps the
        interpreter's lock, and so does a fork: what the library holds is as it is between two calls."""
        if self._lock.acquire(blocking=False):
            self._lock.release()
        else:
            self._lock, self._is_copying = threading.RLock(), False


_all: weakref.WeakSet[Locked] = weakref.WeakSet()


def _after_fork() -> None:
    for it in list(_all):
        it._after_fork()  # pylint: disable=protected-access


if hasattr(os, "register_at_fork"):
    os.register_at_fork(after_in_child=_after_fork)
