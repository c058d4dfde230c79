"""A TLS connection, each use of which ends by a deadline."""
from __future__ import annotations

import contextlib
import os
import re
import socket
import ssl
import threading
import time
from typing import Any, Callable, Iterator, List, Optional, Tuple, TypeVar, Union

from .errors import ConnectError
from .known import CertificateRefused, check_server, refusal_of
from .processes import this_process
from .race import Race
from .stop import STOP, Cancelled, Stop

Passphrase = Union[str, bytes, None]
Port = Union[int, str]
Done = TypeVar('Done')
# OpenSSL's X509_V_FLAG_PARTIAL_CHAIN, which ssl has a name for since Python 3.10.
PARTIAL_CHAIN = ssl.VerifyFlags(0x80000)
# The line that a certificate begins with in PEM.
CERTIFICATE = rb'^-----BEGIN .*CERTIFICATE-----\s*\n'
# How often a search for addresses looks whether the call goes on, in seconds.
LOOKS = 0.05
# No part of the time.
NO_PART: Tuple[Optional[float], Optional[float]] = (None, None)
# The most bytes that TLS is given before the clock is looked at: a record has as many.
PIECE = 1 << 14


def is_port(port: Port) -> bool:
    """Whether it is a port, by its number or by its name in /etc/services. getaddrinfo takes a
    number past the last one modulo 65536, for another port."""
    text = str(port)
    if text.isascii() and text.isdigit():
        return len(text) <= 5 and 1 <= int(text) <= 65535
    return any(character.isalpha() for character in text)


def is_host(host: str) -> bool:
    """Whether it may be a name or an address. One that begins with a dot is none: OpenSSL takes it
    for any name below it."""
    return not host.startswith('.') and '\0' not in host and host.strip('[]') != ''


def context_of(cert: str, key: str, ca: str, passphrase: Passphrase) -> ssl.SSLContext:
    """What a client of this certificate takes: servers of this authority alone, by their name.

    :raises ConnectError: a file cannot be read, or is none of these
    """
    context = ssl.SSLContext(ssl.PROTOCOL_TLS_CLIENT)
    context.minimum_version = ssl.TLSVersion.TLSv1_2
    context.options |= ssl.OP_NO_RENEGOTIATION
    # A name is one of the certificate's alternative names, and no common name.
    context.hostname_checks_common_name = False
    # The authority is that of the server's certificate, which may be of another one itself.
    context.verify_flags |= PARTIAL_CHAIN
    for what, path in (('certificate', cert), ('key', key), ('authority', ca)):
        try:
            with open(path, 'rb'):
                pass
        except OSError as error:
            raise ConnectError('%s %s: %s' % (what, path, error.strerror)) from error
    # (the key may stand in the file of the certificate, and is read from its own)
    for what, path, front in (('certificate', cert, CERTIFICATE), ('authority', ca, b'')):
        if _has(path, front + b'^Proc-Type:.*ENCRYPTED'):
            # OpenSSL would ask the terminal for its passphrase.
            raise ConnectError('%s %s: a block of it is encrypted' % (what, path))
    try:
        context.load_verify_locations(ca)
    except ssl.SSLError as error:
        raise ConnectError('authority %s: %s' % (ca, error)) from error
    _load_key(context, cert, key, passphrase)
    return context


def _has(path: str, pattern: bytes) -> Optional[bool]:
    """Whether a file has a line like this; None where it is none that can be read twice."""
    with contextlib.suppress(OSError):
        if os.path.isfile(path):
            with open(path, 'rb') as file:
                return re.search(pattern, file.read(), re.M) is not None
    return None


def _lacking(cert: str, key: str) -> Optional[str]:
    """Which of the two files has no certificate, or no private key."""
    for what, path, wanted in (('certificate', cert, 'certificate'), ('key', key, 'private key')):
        if _has(path, b'^-----BEGIN .*%s-----' % wanted.upper().encode()) is False:
            return '%s %s: there is no %s in PEM' % (what, path, wanted)
    return None


def _load_key(context: ssl.SSLContext, cert: str, key: str, passphrase: Passphrase) -> None:
    asked = []

    def give() -> Union[str, bytes]:
        # Without this the terminal is asked.
        asked.append(True)
        return passphrase or ''

    try:
        context.load_cert_chain(cert, key, password=give)
    except (ssl.SSLError, ValueError) as error:
        text = _lacking(cert, key) or 'certificate %s, key %s: %s' % (cert, key, error)
        if asked:
            why = 'no passphrase is given' if passphrase is None else 'this is not its passphrase'
            text = 'key %s: it is encrypted, and %s' % (key, why)
        raise ConnectError(text) from error


def _name_of(host: str) -> str:
    """What the server's certificate has to have: a host without its zone, and without the dot that
    ends a name that is complete."""
    name = host.split('%')[0]
    return name[:-1] if name.endswith('.') else name


class Wire:
    """A connection to a server. TLS is given what comes in pieces, between which the clock is
    looked at and handlers of signals run: so it ends in time, whatever a server sends within TLS.

    :param name: what the certificate has to have; None: the host
    :param end: when it has to be open, by the monotonic clock, and
    :param seconds: how many seconds that are, for what is said; None: no deadline
    :raises OSError: there is no connection
    """

    def __init__(self, host: str, port: Port, context: ssl.SSLContext, name: Optional[str],
                 end: Optional[float], seconds: Optional[float]) -> None:
        self._process = this_process()
        #: When it was opened, by the monotonic clock.
        self.since = time.monotonic()
        self._stop: Optional[Stop]
        self._goes_on: Callable[[], bool]
        self._end: Optional[float]
        self._seconds: Optional[float]
        self._came, self._goes = ssl.MemoryBIO(), ssl.MemoryBIO()
        # Whether a byte of an answer was read: then the server has taken the certificate.
        self._has_read = False
        self._begin(end, seconds)
        if host.startswith('[') and host.endswith(']'):
            host = host[1:-1]
        with self._in_time():
            addresses = self._addresses(host, port)
        with contextlib.closing(Race(addresses)) as race:
            self._open(race, context, _name_of(name or host))

    def _open(self, race: Race, context: ssl.SSLContext, name: str) -> None:
        """Connects and shakes hands with the first address for which both come about; each has its
        share of the time. A refused certificate ends it: the addresses are those of one server."""
        whole = self._end, self._seconds
        while True:
            with self._in_time():
                self._plain = race.next(self._left, None if self._stop is None else LOOKS)
            if self._stop is not None:
                self._stop.holds(self._plain)
            if self._end is not None and race.left:
                share = (self._end - time.monotonic()) / (race.left + 1)
                self._end, self._seconds = time.monotonic() + share, share
            try:
                with self._in_time():
                    self._shake_hands(context, name)
                self._end, self._seconds = whole
                return
            except BaseException as error:
                self._send_rest()
                self._plain.close()
                self._end, self._seconds = whole
                is_last = isinstance(error, (CertificateRefused, Cancelled)) or self._is_late()
                if is_last or not isinstance(error, OSError):
                    raise
                race.has_failed(error)
                if not race.left:
                    raise race.error()

    def _shake_hands(self, context: ssl.SSLContext, name: str) -> None:
        self._plain.setsockopt(socket.IPPROTO_TCP, socket.TCP_NODELAY, 1)
        self._came, self._goes = ssl.MemoryBIO(), ssl.MemoryBIO()
        self._tls = context.wrap_bio(self._came, self._goes, server_hostname=name)
        self._in_steps(self._tls.do_handshake)
        check_server(self._tls)

    def is_older(self, max_age: Optional[float]) -> bool:
        """Whether more seconds than this have passed since it was opened."""
        return max_age is not None and time.monotonic() - self.since > max_age

    def begin(self, end: Optional[float], seconds: Optional[float]) -> None:
        """From here on the connection has the time of one call."""
        self._begin(end, seconds)
        if self._stop is not None:
            self._stop.holds(self._plain)

    def share(self, end: Optional[float], seconds: Optional[float],
              goes_on: Callable[[], bool]) -> None:
        """Until then an answer has to begin, where it is not said by then that it goes on."""
        if end != self._end:
            self._part, self._goes_on = (end, seconds), goes_on

    def _begin(self, end: Optional[float], seconds: Optional[float]) -> None:
        self._end, self._seconds = end, seconds
        self._part, self._goes_on = NO_PART, bool
        self._has_come = False      # a byte of the answer
        #: Whether a byte has gone out since.
        self.has_sent = False
        self._stop = STOP.get()

    def _left(self) -> Optional[float]:
        """The seconds that are left."""
        if self._stop is not None:
            self._stop.check()
        now = time.monotonic()
        end, seconds = self._part
        if end is not None:
            if now < end:
                return end - now
            if not self._has_come and not self._goes_on():
                self._end, self._seconds = end, seconds
            self._part = NO_PART
        if self._end is None:
            return None
        left = self._end - now
        if left <= 0:
            raise TimeoutError
        return left

    @contextlib.contextmanager
    def _in_time(self) -> Iterator[None]:
        """Within it, the end of the time is an error that says so, and so are the end of a call
        that was cancelled, and a refusal of the certificate."""
        try:
            yield
        except OSError as error:
            if self._stop is not None and self._stop.is_set:
                raise Cancelled('the call was cancelled') from error
            if isinstance(error, (TimeoutError, socket.timeout)) and self._is_late():
                text = 'no answer within %.3g seconds' % (self._seconds or 0)
                raise TimeoutError(text) from error
            if isinstance(error, ssl.SSLError) and not self._has_read:
                raise refusal_of(error) or error
            raise

    def _is_late(self) -> bool:
        return self._end is not None and time.monotonic() >= self._end

    def _addresses(self, host: str, port: Port) -> List[Any]:
        """The addresses of a host. A search has no deadline, and so has a thread of its own."""
        found: List[Any] = []

        def search(flags: int) -> None:
            try:
                kind = socket.SOCK_STREAM
                found[:] = [socket.getaddrinfo(host, port, type=kind, flags=flags)]
            except OSError as error:
                found[:] = [error]

        search(socket.AI_NUMERICHOST)
        if isinstance(found[0], OSError):
            found.clear()
            thread = threading.Thread(target=search, args=(0,), daemon=True)
            thread.start()
            while thread.is_alive():
                left = self._left()
                wait = LOOKS if self._stop is not None else None
                thread.join(min((time for time in (left, wait) if time is not None), default=None))
        if not found:
            raise TimeoutError
        if isinstance(found[0], OSError):
            raise found[0]
        addresses: List[Any] = found[0]
        return addresses

    def _flush(self) -> None:
        """Sends what TLS has written."""
        rest = memoryview(self._goes.read())
        while rest:
            self._plain.settimeout(self._left())
            rest = rest[self._plain.send(rest):]
            self.has_sent = True

    def _send_rest(self) -> None:
        """Sends what the system takes at once of what TLS has written, as why it gave up."""
        with contextlib.suppress(OSError):
            self._plain.settimeout(0)
            self._plain.send(self._goes.read())

    def _take(self, timeout: Optional[float]) -> None:
        """Gives TLS what comes next, within this time."""
        self._plain.settimeout(timeout)
        piece = self._plain.recv(PIECE)
        if piece:
            self._came.write(piece)
        else:
            self._came.write_eof()

    def _wait(self) -> None:
        """Gives TLS what comes next, in time."""
        while True:
            try:
                return self._take(self._left())
            except (TimeoutError, socket.timeout):
                self._left()    # (its share may be over, and the time not)

    def _in_steps(self, step: Callable[[], Done]) -> Done:
        """Has TLS do this, which wants bytes from the server until it is done."""
        while True:
            try:
                done = step()
            except ssl.SSLWantReadError:
                self._flush()
                self._wait()
            except ssl.SSLEOFError:
                raise OSError('end of input') from None
            else:
                self._flush()
                return done

    def _read(self, count: int) -> bytes:
        """So many bytes, or fewer, but some.

        :raises ssl.SSLWantReadError: there are none yet
        """
        try:
            piece = self._tls.read(count)
        except ssl.SSLEOFError:
            piece = b''
        if not piece:
            raise OSError('end of input')
        return piece

    def check_idle(self) -> None:
        """Nothing, where the connection is open and has no bytes to read.

        :raises OSError: it has ended, or has bytes that nobody asked for
        """
        with self._in_time():
            while True:
                with contextlib.suppress(ssl.SSLWantReadError):
                    self._read(1)
                    raise OSError('the server sent bytes that no call had asked for')
                self._left()
                try:
                    self._take(0)
                except BlockingIOError:
                    return

    def send(self, request: bytes) -> None:
        """Sends all of these bytes."""
        rest = memoryview(request)
        with self._in_time():
            try:
                while rest:
                    rest = rest[self._in_steps(lambda: self._tls.write(rest)):]
            except (BrokenPipeError, ConnectionError):
                self._look_for_alert()
                raise

    def _look_for_alert(self) -> None:
        """What could not be written may have been refused, with an alert that is not read yet.

        :raises ssl.SSLError: so it is
        """
        try:
            self._take(0)
            self._tls.read(1)
        except ssl.SSLError as error:
            if refusal_of(error):
                raise
        except OSError:
            pass    # there is none

    def read(self, count: int) -> bytes:
        """So many bytes."""
        got = bytearray()
        with self._in_time():
            while len(got) < count:
                got += self._in_steps(lambda: self._read(min(count - len(got), 65536)))
                self._has_read = self._has_come = True
        return bytes(got)

    def close(self, in_order: bool) -> None:
        """Ends the connection. In order, it says so to the server, and waits for nothing. In the
        child of a fork the connection goes on, and is the parent's."""
        if in_order and self._process == this_process():
            with contextlib.suppress(OSError, ValueError):
                self._tls.unwrap()
            self._send_rest()
        self._plain.close()
