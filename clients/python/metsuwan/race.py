"""The way to a server: the addresses of its host, to which connections are made side by side."""
from __future__ import annotations

import contextlib
import errno
import fcntl
import os
import select
import socket
import time
from typing import Any, Callable, Dict, List, Optional, Tuple

from .processes import keep

# Each address begins so many seconds after the one before, or once that has failed (RFC 8305, 5).
NEXT_ADDRESS = 0.25
MOST_ADDRESSES = 16
UNDER_WAY = (0, errno.EINPROGRESS, errno.EINTR, errno.EWOULDBLOCK)
# What getaddrinfo says of an address.
Address = Tuple[Any, ...]


def in_turns(addresses: List[Address]) -> List[Address]:
    """The addresses in their order: the first as the system has them, and then one of each family
    in turn (RFC 8305, 4)."""
    first = [it for it in addresses if it[0] == addresses[0][0]]
    second = [it for it in addresses if it[0] != addresses[0][0]]
    ordered: List[Address] = []
    while first or second:
        ordered += first[:1] + second[:1]
        del first[:1], second[:1]
    return ordered[:MOST_ADDRESSES]


def socket_of(family: int, kind: int, protocol: int) -> socket.socket:
    """A socket that is none of the three standard streams. Where the program has closed one of
    these, what it writes to the stream would go out on the connection, with no TLS."""
    made = socket.socket(family, kind, protocol)
    if made.fileno() > 2:
        return made
    with made:
        moved = fcntl.fcntl(made, fcntl.F_DUPFD_CLOEXEC, 3)
        return socket.socket(family, kind, protocol, fileno=moved)


class Race:
    """Connections to the addresses of a host, of which the first that is there is taken."""

    def __init__(self, addresses: List[Address]) -> None:
        self._waiting = in_turns(addresses)
        self._under_way: Dict[int, socket.socket] = {}
        self._next = 0.0        # when the next one begins, by the monotonic clock
        self._is_reached = False
        self._errors: List[OSError] = []

    @property
    def left(self) -> int:
        """How many addresses are left."""
        return len(self._waiting) + len(self._under_way)

    def has_failed(self, error: OSError) -> None:
        """What failed with the one that was there, of which more is known than of those that were
        not reached. The next begins at once."""
        if not self._is_reached:
            self._errors.clear()
        self._is_reached = True
        self._add(error)
        self._next = 0.0

    def _add(self, error: OSError) -> None:
        if str(error) not in map(str, self._errors):
            self._errors.append(error)

    def error(self) -> OSError:
        """All that failed: the one error, or one that says all of them."""
        if not self._errors:
            return OSError('the host has no address')
        last = self._errors[-1]
        if len(self._errors) == 1:
            return last
        error = OSError(', '.join(map(str, self._errors)))
        error.__cause__ = last
        return error

    def _fails(self, error: OSError) -> None:
        if not self._is_reached:
            self._add(error)
        self._next = 0.0

    def _begin(self) -> None:
        """Begins the next one."""
        family, kind, protocol, _, address = self._waiting.pop(0)
        self._next = time.monotonic() + NEXT_ADDRESS
        try:
            plain = socket_of(family, kind, protocol)
            keep(plain)
            plain.setblocking(False)
            self._under_way[plain.fileno()] = plain
            error = plain.connect_ex(address)
        except OSError as failed:
            self._fails(failed)
            return
        if error not in UNDER_WAY:
            del self._under_way[plain.fileno()]
            plain.close()
            self._fails(OSError(error, os.strerror(error)))

    def next(self, left: Callable[[], Optional[float]], looks: Optional[float]) -> socket.socket:
        """The next connection that is there.

        :param left: the seconds that are left, or None; it raises where none are
        :param looks: how often it is called at least, in seconds
        :raises OSError: there is none
        """
        while self.left:
            wait = left()
            if self._waiting and (not self._under_way or time.monotonic() >= self._next):
                self._begin()
            if not self._under_way:
                continue
            until_next = max(self._next - time.monotonic(), 0) if self._waiting else None
            waits = [it for it in (wait, until_next, looks) if it is not None]
            reached = self._there(min(waits) if waits else None)
            if reached is not None:
                return reached
        raise self.error()

    def _there(self, wait: Optional[float]) -> Optional[socket.socket]:
        """One of those under way that is there within this time."""
        poll = select.poll()
        for number in self._under_way:
            poll.register(number, select.POLLOUT)
        for number, _ in poll.poll(None if wait is None else wait * 1000 + 1):
            plain = self._under_way.pop(number)
            error = plain.getsockopt(socket.SOL_SOCKET, socket.SO_ERROR)
            if error == 0:
                return plain
            plain.close()
            self._fails(OSError(error, os.strerror(error)))
        return None

    def close(self) -> None:
        """Ends those that were not taken."""
        for plain in self._under_way.values():
            with contextlib.suppress(OSError):
                plain.close()
        self._under_way.clear()
