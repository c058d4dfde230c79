"""The servers of a client, or of the clients of a pool: their list, whose turn it is, and which are
left out for a while."""
from __future__ import annotations

import itertools
import math
import random
import time
from typing import Collection, Iterator, List, Optional, Sequence, Union

from .wire import Port, is_host, is_port

PORT = 5696
MOST = 16
NO_SERVER = 'server is a text or a list of texts, and %s was given'
# A server is left out for 1 second after a failure, and twice as long after each one more without
# an answer between; a fifth more or less, so that clients do not come back at once.
FIRST_PAUSE, LAST_PAUSE, VARIES = 1.0, 60.0, 0.2
# How long others leave the one to which a call goes to see whether it is back.
TRIAL = 5.0


class Server:
    """A server, and how it does. Threads share it without a lock, which a fork could leave taken:
    each value is written whole, and two that write at once cost one try more."""

    def __init__(self, host: str, port: Port) -> None:
        self.host, self.port = host, port
        self.text = '%s:%s' % (host, port)
        self.failures = 0           # since it last answered
        self.is_refusing = False    # the last was that it refused the certificate
        self.why = ''               # and why it failed
        self.out_until = self.failed_at = self.answered_at = 0.0

    def out(self) -> float:
        """The seconds for which it is still left out."""
        return max(self.out_until - time.monotonic(), 0)

    def has_failed(self, why: str, is_refusing: bool, began: float = math.inf) -> float:
        """A connection of it has failed, or the try of one, that began at this time: it is left out
        for so many seconds. All connections that a server had end with it, and that is one
        failure: what began before the last one has failed with it."""
        if self.failures > 0 and began < self.failed_at:
            return self.out()
        pause: float = min(FIRST_PAUSE * 2 ** min(self.failures, 10), LAST_PAUSE)
        pause *= 1 + random.uniform(-VARIES, VARIES)
        now = time.monotonic()
        self.why, self.is_refusing, self.failures = why, is_refusing, self.failures + 1
        self.out_until, self.failed_at = now + pause, now
        return pause

    def has_answered(self) -> bool:
        """It has answered. Whether it had failed before."""
        was_out = self.failures > 0
        self.failures, self.is_refusing, self.out_until = 0, False, 0.0
        self.answered_at = time.monotonic()
        return was_out


class Servers:
    """The servers in their order, or by turns: then each connection goes to the next one, the first
    to any by chance."""

    def __init__(self, servers: Sequence[Server], order: str = 'first') -> None:
        if order not in ('first', 'turns'):
            raise ValueError('order is first or turns')
        self.all, self.by_turns = list(servers), order == 'turns'
        self._turns = itertools.count(random.randrange(len(self.all)))

    def next(self, tried: Collection[Server]) -> Optional[Server]:
        """The first that was not tried and is not left out; or else the one that is left out for
        the least time, but for those that refused the certificate."""
        start = next(self._turns) % len(self.all) if self.by_turns else 0
        now = time.monotonic()
        left = [it for it in self.all[start:] + self.all[:start] if it not in tried]
        found = next((it for it in left if it.out_until <= now), None)
        if found is None:
            taking = [it for it in left if not it.is_refusing]
            found = min(taking, key=Server.out) if taking else None
        if found is not None and found.failures > 0:
            # One call goes to see; the others have others meanwhile.
            found.out_until = now + TRIAL
        return found


def _checked(host: str, port: Port) -> Server:
    if not isinstance(host, str):
        raise TypeError('a host is a text, and %s was given' % type(host).__name__)
    if not is_host(host):
        raise ValueError('a host is a name or an address')
    if isinstance(port, bool) or not isinstance(port, (int, str)):
        raise TypeError('a port is an int or a text, and %s was given' % type(port).__name__)
    if not is_port(port):
        raise ValueError('a port is a number of 1 to 65535, or the name of a service')
    return Server(host, port)


def _server_of(text: str) -> Server:
    """HOST, HOST:PORT or [ADDRESS]:PORT. An address with colons has to have its brackets, since
    else its end may be a port."""
    if not text:
        raise ValueError('server has an empty place')
    if len(text) > 300:
        raise ValueError('server has a server that is too long')
    if any(sign.isspace() or sign == '\0' for sign in text):
        raise ValueError('server has a space')
    host, has_port, port = text.partition(':')
    if text.startswith('['):
        address, closes, rest = text.partition(']')
        if not closes or address == '[':
            raise ValueError('server has a bracket without an address')
        host, (before, has_port, port) = address + closes, rest.partition(':')
        if before:
            has_port, port = ':', ''
    if has_port and (not port or ':' in port):
        raise ValueError('server has what is no HOST, HOST:PORT or [ADDRESS]:PORT')
    return _checked(host, port or PORT)


def _places(server: Union[str, Sequence[str]]) -> Iterator[str]:
    if isinstance(server, (bytes, bytearray)) or not isinstance(server, (str, Sequence)):
        raise TypeError(NO_SERVER % type(server).__name__)
    for text in [server] if isinstance(server, str) else server:
        if not isinstance(text, str):
            raise TypeError(NO_SERVER % type(text).__name__)
        yield from text.split(',')


def servers_of(host: Optional[str], port: Optional[Port],
               server: Union[str, Sequence[str], Servers, None], order: str) -> Servers:
    """The servers of these settings.

    :raises ValueError: they are none
    :raises TypeError: they are of another type
    """
    if server is None:
        if host is None:
            raise TypeError('a host or a server has to be given')
        return Servers([_checked(host, PORT if port is None else port)], order)
    if host is not None or port is not None:
        raise ValueError('server stands in the place of host and port')
    if isinstance(server, Servers):
        return server
    made: List[Server] = []
    for text in _places(server):
        if len(made) == MOST:
            raise ValueError('server has more than 16')
        made.append(_server_of(text))
        if made[-1].text.lower() in [it.text.lower() for it in made[:-1]]:
            raise ValueError('server has one twice')
    if not made:
        raise ValueError('server has an empty place')
    return Servers(made, order)
