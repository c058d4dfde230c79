"""Several connections to one server, which threads share."""
from __future__ import annotations

import contextlib
import inspect
import threading
from typing import Any, Dict, Iterator, List, Optional, Tuple

from .client import TIMEOUT, Client, check_age, check_timeout
from .errors import ConnectError
from .processes import OfOneProcess, Process, this_process
from .servers import servers_of


class Settings:
    """What a pool opens clients with, and how it keeps them.

    :raises TypeError: a word is none of a client
    :raises ValueError: the size or the age is none
    """

    def __init__(self, words: Tuple[Any, ...], size: int, max_age: Optional[float],
                 settings: Dict[str, Any]) -> None:
        if isinstance(size, bool) or not isinstance(size, int) or size < 1:
            raise ValueError('a size is 1 or more')
        check_age(max_age)
        given = inspect.signature(Client).bind(*words, **settings).arguments
        check_timeout(given.get('timeout'))
        self.size, self.max_age = size, max_age
        self.timeout: Optional[float] = given.get('timeout', TIMEOUT) or None
        # One list of servers, with what is known of them, for all connections.
        self.servers = servers_of(given.pop('host', None), given.pop('port', None),
                                  given.pop('server', None), given.pop('order', 'first'))
        self.words: Dict[str, Any] = {**given, 'server': self.servers}

    def open(self) -> Client:
        """A client with a connection of its own."""
        return Client(**self.words)

    def place(self) -> int:
        """Which of those that are free is given out: the one that was used last, or with servers by
        turns the one that has been idle longest."""
        return 0 if self.servers.by_turns else -1

    def no_place(self) -> ConnectError:
        """The error of who has waited in vain."""
        return ConnectError('no connection of the pool is free within %g seconds'
                            % (self.timeout or 0))


class _State:
    """The connections of a pool in one process."""

    def __init__(self, size: int) -> None:
        self.free: List[Client] = []
        self.room = threading.BoundedSemaphore(size)
        self.lock = threading.Lock()


class Pool(OfOneProcess):
    """Clients of one server, as a context manager. Each is one connection, on which one call at a
    time is made: so threads that share a pool wait for none of each other up to ``size``.

        with Pool('localhost', size=4, cert='client.pem', key='client.key', ca='ca.pem') as pool:
            with pool.client() as kmip:
                kmip.sign(key, data)

    The words are those of ``Client``. A connection is opened when it is first wanted, and looked at
    before it is given out again: one that a call has lost, or that the server has ended, is not. A
    child of a fork has connections of its own.

    :param size: the most connections at a time; a thread that wants one more waits, at most for
        ``timeout``
    :param max_age: the most seconds that a connection is given out after it was opened; None: as
        long as it lasts
    """

    def __init__(self, *words: Any, size: int = 4, max_age: Optional[float] = None,
                 **settings: Any) -> None:
        super().__init__()
        self._settings = Settings(words, size, max_age, settings)
        self._states: Dict[Process, _State] = {}
        self._is_closed = False

    def _state(self) -> _State:
        """What this process has. What the process has that it was forked from is not touched: a
        thread that is not here may have its lock and its places."""
        process = this_process()
        found = self._states.get(process)
        return found or self._states.setdefault(process, _State(self._settings.size))

    def __enter__(self) -> 'Pool':
        return self

    def __exit__(self, *_: object) -> None:
        self.close()

    def close(self) -> None:
        """Ends the connections that nobody uses, and each other when it is given back."""
        state = self._state()
        with state.lock:
            self._is_closed = True
            free, state.free = state.free, []
        for client in free:
            client.close()

    @contextlib.contextmanager
    def client(self) -> Iterator[Client]:
        """A client for the caller alone, until the end of the block.

        :raises ConnectError: there is no connection, or none was free within ``timeout``
        :raises ValueError: the pool is closed
        """
        state = self._state()
        if not state.room.acquire(timeout=self._settings.timeout or -1):
            raise self._settings.no_place()
        try:
            client = self._taken(state) or self._settings.open()
            try:
                yield client
            finally:
                self._give_back(state, client)
        finally:
            if state is self._state():  # and no fork has come between
                state.room.release()

    def _taken(self, state: _State) -> Optional[Client]:
        """One that is free, and good."""
        while True:
            with state.lock:
                if self._is_closed:
                    raise ValueError('the pool is closed')
                if not state.free:
                    return None
                client = state.free.pop(self._settings.place())
            if client._look(self._settings.max_age):
                return client
            client.close()

    def _give_back(self, state: _State, client: Client) -> None:
        if state is not self._state():  # the block was entered before a fork
            return
        with state.lock:
            keeps = client.is_open and not self._is_closed
            if keeps:
                state.free.append(client)
        if not keeps:
            client.close()
