"""What belongs to one process: a child of a fork has a copy of each connection, and uses none."""
from __future__ import annotations

import os
import socket
import weakref
from typing import NoReturn, Tuple

Process = Tuple[int, int]
# How many forks that Python made lie between this process and the one that loaded this module. The
# number of a process may come again, and a fork that Python does not know of has another one.
_forks = 0
# The sockets that this process, or the one that it was forked from, has open.
_sockets: weakref.WeakSet[socket.socket] = weakref.WeakSet()


def this_process() -> Process:
    """What no two processes have in common that one was forked from the other."""
    return _forks, os.getpid()


def keep(plain: socket.socket) -> None:
    """Has the copy of this socket closed in each child of a fork. That says nothing to the server;
    where it stays open, the parent's end of the connection is none."""
    _sockets.add(plain)


def _after_fork() -> None:
    global _forks
    _forks += 1
    for plain in list(_sockets):
        plain.close()
    _sockets.clear()


os.register_at_fork(after_in_child=_after_fork)


class OfOneProcess:
    """What is neither pickled nor copied, since its connections are those of this process."""

    def __init__(self) -> None:
        self._process = this_process()

    def _is_own(self) -> bool:
        """Whether this process made it, and not one that it was forked from."""
        return self._process == this_process()

    def __reduce__(self) -> NoReturn:
        raise TypeError('a %s has connections of its process, and can be neither pickled nor '
                        'copied: make another one' % type(self).__name__)
