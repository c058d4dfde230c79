"""The connection of a client: how it is opened, kept and ended, and what is done where it fails."""
from __future__ import annotations

import contextlib
import logging
import ssl
import threading
import time
from typing import Iterator, List, Optional, Tuple

from .errors import (ConnectError, ConnectionLost, DeserializeError, KmipError, RequestWriteError,
                     ResponseReadError)
from .known import CertificateRefused
from .library import TOO_LONG, Library
from .processes import OfOneProcess
from .servers import Server, Servers
from .stop import Cancelled
from .wire import Wire

HEAD = 8
LOG = logging.getLogger('metsuwan')
# The most seconds of connecting and TLS with a server after which there is another.
CONNECT_SECONDS = 5.0
MAY_BE_DONE = '; it may have been done there, and was sent to no other server'


class Carrier(OfOneProcess):
    """What carries a client's messages."""

    _library: Library
    _limit: int

    def __init__(self, servers: Servers, name: Optional[str], context: ssl.SSLContext,
                 timeout: Optional[float], reconnects: bool, max_age: Optional[float]) -> None:
        super().__init__()
        # Only one thread at a time is within a call, and it only once.
        self._lock, self._is_busy = threading.RLock(), False
        self._servers, self._name, self._context = servers, name, context
        self._timeout, self._max_age = timeout, max_age
        self._reconnects = reconnects or self._are_several()
        self._is_ended = False      # by its owner
        # Whether the call at hand is given up with one server for another.
        self._shares = False
        self._wire: Optional[Wire] = None
        # The server of the connection, or the one that was tried last; and that which has said
        # that a call is pending.
        self._at = servers.all[0]
        self._began = 0.0           # when its connection was opened, or the try of that began
        self._pending_at: Optional[Server] = None
        self._begin_time()
        self._wire = self._opened()

    def _are_several(self) -> bool:
        return len(self._servers.all) > 1

    @property
    def _server(self) -> str:
        return self._at.text

    @property
    def is_open(self) -> bool:
        """Whether calls can be made: no call has lost the connection, or it may be opened again."""
        may_open = self._reconnects and not self._is_ended
        return self._is_own() and (self._wire is not None or may_open)

    @contextlib.contextmanager
    def _alone(self) -> Iterator[None]:
        """Within it no other thread makes a call. A handler of a signal that comes within it would
        wait for itself. In the child of a fork the lock may be that of a thread which is not
        there."""
        if not self._is_own():
            raise RequestWriteError("the connection is another process's; nothing was sent")
        with self._lock:
            if self._is_busy:
                raise RuntimeError('a handler of a signal used a client within a call of it; '
                                   'an exception that it raises ends the call')
            try:
                self._is_busy = True
                yield
            finally:
                self._is_busy = False

    def _end(self, in_order: bool) -> None:
        wire, self._wire = self._wire, None
        if wire is not None:
            wire.close(in_order)

    def _look(self, max_age: Optional[float]) -> bool:
        """Whether a pool may give it out: the server has not ended the connection nor failed since
        it was opened, nothing has come on it, and it is not older than this; or it is opened
        again."""
        with self._alone():
            wire = self._wire
            if wire is not None and (wire.is_older(max_age) or self._at.failed_at > wire.since):
                self._end(True)
            elif wire is not None:
                self._begin_time()
                wire.begin(self._until, self._timeout)
                try:
                    wire.check_idle()
                except OSError:
                    self._end(False)
            return self.is_open

    def _begin_time(self) -> None:
        """Begins the time of the opening, or of a call, and the list of what failed within it."""
        self._until = None if self._timeout is None else time.monotonic() + self._timeout
        self._tried: List[Server] = []
        self._reasons: List[str] = []

    def _is_late(self) -> bool:
        return self._until is not None and time.monotonic() >= self._until

    def _untried(self) -> int:
        return len(self._servers.all) - len(self._tried)

    def _share(self, most: Optional[float]) -> Tuple[Optional[float], Optional[float]]:
        """When the server at hand has had its share of the time, which is not more than ``most``
        seconds, and how many seconds that are; the last one has all that is left."""
        left, now = self._untried(), time.monotonic()
        parts = [] if most is None else [most]
        if self._until is not None:
            parts.append((self._until - now) / max(left, 1))
        if left < 2 or not parts or min(parts) <= 0:
            return self._until, self._timeout
        return now + min(parts), min(parts)

    def _add_reason(self, server: Server, why: str) -> None:
        self._reasons.append('%s: %s' % (server.text, why) if self._are_several() else why)

    def _has_failed(self, error: BaseException) -> None:
        """The server at hand is not tried again in this call, and left out for a while."""
        self._tried.append(self._at)
        is_refusing = isinstance(error, CertificateRefused)
        pause = self._at.has_failed(str(error), is_refusing, self._began)
        self._add_reason(self._at, str(error))
        if self._are_several():
            LOG.warning('%s: %s: it is left out for %.1f s', self._server, KmipError(str(error)),
                        pause)

    def _opened(self) -> Wire:
        """A connection to the first server, in its turn, with which that comes about."""
        if self._is_ended:
            raise RequestWriteError('the connection is closed; nothing was sent')
        last: Optional[OSError] = None
        while last is None or not self._is_late():
            server = self._servers.next(self._tried)
            if server is None:
                break
            self._at, self._began = server, time.monotonic()
            try:
                wire = Wire(server.host, server.port, self._context, self._name,
                            *self._share(CONNECT_SECONDS))
                self._began = wire.since
                return wire
            except OSError as error:
                last = error
                if isinstance(error, Cancelled):
                    self._reasons.append(str(error))
                    break
                self._has_failed(error)
        self._add_those_left()
        raise ConnectError('; '.join(self._reasons)) from last

    def _add_those_left(self) -> None:
        for server in self._servers.all:
            if server in self._tried:
                continue
            out = server.out()
            if server.is_refusing:
                self._add_reason(server, 'left out for %.0f s more: %s' % (out, server.why))
            elif self._are_several():
                after = ', after: ' + server.why if out > 0 else ''
                self._add_reason(server, 'not tried within the time' + after)

    def _ready(self) -> Wire:
        """The connection, which is opened again where it was lost, or is too old, and that is
        wanted."""
        wire = self._wire
        if wire is not None and self._reconnects and wire.is_older(self._max_age):
            self._end(True)
            self._wire = self._opened()
            LOG.info('%s: the connection was old, and another one is opened', self._server)
        elif wire is None:
            if not self._reconnects:
                raise RequestWriteError('the connection is closed; nothing was sent')
            self._wire = self._opened()
            LOG.warning('%s: the connection was lost, and is opened again', self._server)
        assert self._wire is not None
        return self._wire

    def _go_to(self, only: Server) -> None:
        """Has this call go to this server and to no other."""
        self._tried = [server for server in self._servers.all if server is not only]
        if self._at is not only:
            self._end(True)

    def _response_again(self, request: bytes, is_changeless: bool,
                        only: Optional[Server] = None) -> bytes:
        """The response to a request. Where the server at hand fails, it is sent to each other,
        once: as long as nothing of it was sent, and where it changes nothing also after that."""
        self._begin_time()
        if only is not None:
            self._go_to(only)
        self._shares = is_changeless and self._reconnects
        was_open, was_sent = self._wire is not None, False
        while True:
            try:
                response = self._response(self._ready(), request)
            except (ConnectError, RequestWriteError, ResponseReadError) as error:
                cause = error.__cause__
                if self._wire is None or isinstance(cause, Cancelled):
                    error.was_sent |= was_sent
                    raise   # no server was reached
                self._end(False)
                was_idle = was_open and not isinstance(cause, (TimeoutError, CertificateRefused))
                # That a connection ended while it lay idle says nothing of its server.
                is_alone = not self._are_several()
                if not (was_idle and (not error.was_sent or is_alone)) and cause is not None:
                    self._has_failed(cause)
                was_open, was_sent = False, was_sent or error.was_sent
                may_go_on = self._reconnects and self._untried() > 0
                if not may_go_on or (was_sent and not is_changeless):
                    raise self._with_all(error, was_sent, is_changeless) from cause
                if self._is_late():
                    self._add_those_left()
                    raise self._with_all(error, was_sent, is_changeless) from cause
                LOG.warning('%s: %s: the call is made again', self._server, error)
            else:
                if self._at.has_answered() and self._are_several():
                    LOG.warning('%s: it answers again', self._server)
                return response

    def _with_all(self, error: ConnectionLost, was_sent: bool,
                  is_changeless: bool) -> ConnectionLost:
        """The error with all that failed before it, where there are several servers."""
        if self._are_several() and self._reasons:
            text = '; '.join(self._reasons)
            text += MAY_BE_DONE if was_sent and not is_changeless else ''
            error = type(error)(text)
        error.was_sent = was_sent
        return error

    def _response(self, wire: Wire, request: bytes) -> bytes:
        """The response to a request. A server that refuses the certificate has read nothing."""
        wire.begin(self._until, self._timeout)
        try:
            return self._response_on(wire, request)
        except CertificateRefused as error:
            raise ConnectError(str(error)) from error

    def _response_on(self, wire: Wire, request: bytes) -> bytes:
        """The three steps that nothing checks: these bytes are sent, 8 are read, and then so
        many."""
        try:
            wire.check_idle()
        except CertificateRefused:
            raise
        except OSError as error:
            raise RequestWriteError('%s; nothing was sent' % error) from error
        server, begun = self._at, time.monotonic()
        try:
            wire.send(request)
        except CertificateRefused:
            raise
        except OSError as error:
            raise RequestWriteError(str(error), wire.has_sent) from error
        if self._shares:
            # One that has begun to answer, or answers others, is slow, and not dead.
            wire.share(*self._share(None), lambda: server.answered_at > begun)
        try:
            head = wire.read(HEAD)
            more = self._library.contents_len(head, self._limit)
            if more == TOO_LONG:
                raise DeserializeError('the response is longer than the limit of %d bytes'
                                       % self._limit)
            if more < 0:
                raise DeserializeError('not a structure')
            return head + wire.read(more)
        except (CertificateRefused, ConnectionLost):
            raise
        except OSError as error:
            raise ResponseReadError(str(error)) from error
