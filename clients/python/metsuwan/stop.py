"""What ends a call at once that another thread makes."""
from __future__ import annotations

import contextlib
import socket
import threading
from contextvars import ContextVar
from typing import Optional


class Cancelled(OSError):
    """The call was cancelled, and its connection is lost."""


class Stop:
    """What ends a call: the connection that it uses is closed under it."""

    def __init__(self) -> None:
        self._lock = threading.Lock()
        self._plain: Optional[socket.socket] = None
        self.is_set = False

    def holds(self, plain: socket.socket) -> None:
        """The call uses this connection."""
        with self._lock:
            self._plain = plain

    def lets_go(self) -> None:
        """The call has ended: what comes later ends nothing."""
        with self._lock:
            self._plain = None

    def set(self) -> None:
        """Ends the call."""
        with self._lock:
            self.is_set = True
            if self._plain is not None:
                with contextlib.suppress(OSError):      # it has ended, or has not begun
                    self._plain.shutdown(socket.SHUT_RDWR)

    def check(self) -> None:
        """Nothing, where the call goes on."""
        if self.is_set:
            raise Cancelled('the call was cancelled')


# That of the call that is made; None: nothing ends it.
STOP: ContextVar[Optional[Stop]] = ContextVar('metsuwan.stop', default=None)
