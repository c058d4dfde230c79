"""Clients for asyncio: each call is that of ``Client``, made in a thread.

    from metsuwan import AsyncPool

    async with AsyncPool('localhost', cert='client.pem', key='client.key', ca='ca.pem') as pool:
        async with pool.client() as kmip:
            signature = (await kmip.sign(key, b'to be signed')).signature_data
"""
from __future__ import annotations

import asyncio
import contextlib
import contextvars
import functools
from collections import deque
from concurrent.futures import Future, ThreadPoolExecutor
from typing import (TYPE_CHECKING, Any, AsyncIterator, Callable, Coroutine, Deque, Dict, List,
                    Optional, Set, TypeVar)

from .batch import Answer, Calls
from .client import Client
from .errors import RequestWriteError
from .pool import Settings
from .processes import OfOneProcess, Process, this_process
from .stop import STOP, Stop
from .wire import LOOKS

R = TypeVar('R')
if TYPE_CHECKING:
    from typing_extensions import Concatenate, ParamSpec
    P = ParamSpec('P')


def _awaited(method: Callable[Concatenate[Client, P], R]
             ) -> Callable[Concatenate[AsyncClient, P], Coroutine[Any, Any, R]]:
    """A method of ``Client``, which is made in the thread of an ``AsyncClient``."""
    @functools.wraps(method)
    async def call(kmip: AsyncClient, /, *words: P.args, **options: P.kwargs) -> R:
        return await kmip._made(functools.partial(method, kmip._ready(), *words, **options))

    call.__qualname__ = 'AsyncClient.' + method.__name__
    return call


def _after(future: Future[Any], function: Callable[[], object]) -> None:
    """Has this loop call the function once the future is done; or nobody, where the loop is closed
    by then."""
    loop = asyncio.get_running_loop()

    def announce(_: Future[Any]) -> None:
        with contextlib.suppress(RuntimeError):
            loop.call_soon_threadsafe(function)

    future.add_done_callback(announce)


class AsyncBatch(Calls):
    """A ``Batch`` whose sending is awaited; ``call`` and ``operation`` add to it at once.

        batch = kmip.batch(on_error='Stop').call('activate', key).call('sign', key, data)
        activated, signed = await batch.send()
    """

    def __init__(self, owner: AsyncClient, on_error: str) -> None:
        super().__init__(owner._ready(), on_error)
        self._owner = owner

    async def send(self) -> List[Answer]:
        """Makes the calls that were added so far, and returns what ``Batch.send`` does."""
        return await self._owner._made(self._sending())


class AsyncClient(OfOneProcess):
    """One connection to a KMIP server, for asyncio. It takes the words of ``Client``, and has its
    methods, to be awaited, with their values and errors.

        async with AsyncClient('localhost', cert='client.pem', key='client.key',
                               ca='ca.pem') as kmip:
            key = await kmip.create_aes(256, 'storage')

    There is no other code of the protocol: a call is that of ``Client``, and occupies a thread
    until it ends. A client has one thread, so its calls are made one at a time, in the order in
    which they were awaited, and none holds the loop. For calls at once there is ``AsyncPool``.

    A call that is cancelled, as by ``asyncio.wait_for`` or Ctrl-C, is not made if its turn has not
    come. Else it ends at once: the connection is closed under it, what it asked for may have been
    done, and the client is closed, but where it opens another connection (``reconnect``).

    What ``record`` names is called in the thread.
    """

    def __init__(self, *words: Any, **settings: Any) -> None:
        super().__init__()
        self._new = functools.partial(Client, *words, **settings)
        self._client: Optional[Client] = None
        self._thread = ThreadPoolExecutor(1, 'metsuwan')
        self._calls: List[Future[Any]] = []
        self._closing: Optional[Future[None]] = None

    async def __aenter__(self) -> AsyncClient:
        return await self.open()

    async def __aexit__(self, *_: object) -> None:
        await self.close()

    async def open(self) -> AsyncClient:
        """Opens the connection, as ``async with`` does. Where it fails or is cancelled, the client
        is closed.

        :raises ConnectError: there is no connection; and what else ``Client`` raises
        """
        if not self.is_open:
            try:
                await self._made(self._open)
            except BaseException:
                self._close_behind()
                raise
        return self

    def _open(self) -> None:
        if self._client is None:
            self._client = self._new()

    async def close(self) -> None:
        """Ends the connection, once the calls that were begun have ended. Where that is cancelled,
        nobody waits for it, and it is done all the same."""
        closing, ended = self._close_behind(), asyncio.Event()
        _after(closing, ended.set)
        await ended.wait()
        closing.result()

    def _close_behind(self) -> Future[None]:
        """Has the thread end the connection, and then itself, behind what it has to do."""
        if not self._is_own():      # its thread is not here
            closed: Future[None] = Future()
            closed.set_result(None)
            return closed
        if self._closing is None:
            self._closing = self._thread.submit(self._close)
            self._thread.shutdown(wait=False)
        return self._closing

    def _close(self) -> None:
        if self._client is not None:
            self._client.close()

    @property
    def is_open(self) -> bool:
        """Whether calls can be made, as of ``Client``."""
        return self._closing is None and self._client is not None and self._client.is_open

    def _ready(self) -> Client:
        if self._client is None:
            raise RequestWriteError('the connection is not open; nothing was sent')
        return self._client

    async def _look(self, max_age: Optional[float]) -> bool:
        """As that of ``Client``."""
        return await self._made(functools.partial(self._ready()._look, max_age))

    async def _made(self, call: Callable[[], R]) -> R:
        """What a call returns that the thread makes when its turn comes."""
        if not self._is_own():
            raise RequestWriteError("the connection is another process's; nothing was sent")
        if self._closing is not None:
            raise RequestWriteError('the connection is closed; nothing was sent')
        context, stop = contextvars.copy_context(), Stop()
        context.run(STOP.set, stop)

        def make() -> R:
            try:
                return context.run(call)
            finally:
                stop.lets_go()

        future = self._thread.submit(make)
        self._calls.append(future)
        try:
            return await asyncio.wrap_future(future)
        finally:
            self._forget()
            if not future.done():   # the wait was cancelled
                _after(future, self._forget)
                self._end_call(future, stop)

    def _end_call(self, future: Future[Any], stop: Stop) -> None:
        """Ends a call, also one whose connection is about to be opened."""
        if not future.done():
            stop.set()
            asyncio.get_running_loop().call_later(LOOKS, self._end_call, future, stop)

    def _forget(self) -> None:
        """Keeps no call that has ended: its answer may be a key."""
        self._calls = [future for future in self._calls if not future.done()]

    def _last(self) -> Optional[Future[Any]]:
        """A call that has not ended, behind all others; None where all have."""
        return next((future for future in reversed(self._calls) if not future.done()), None)

    def batch(self, *, on_error: str = 'Continue') -> AsyncBatch:
        """A batch, as of ``Client``: calls are added to it at once, and its sending is awaited."""
        return AsyncBatch(self, on_error)

    call = _awaited(Client.call)
    call_texts = _awaited(Client.call_texts)
    operation = _awaited(Client.operation)
    query = _awaited(Client.query)
    discover = _awaited(Client.discover)
    create_rsa_key_pair = _awaited(Client.create_rsa_key_pair)
    create_aes = _awaited(Client.create_aes)
    create = _awaited(Client.create)
    register = _awaited(Client.register)
    register_certificate = _awaited(Client.register_certificate)
    register_private_key = _awaited(Client.register_private_key)
    register_public_key = _awaited(Client.register_public_key)
    register_secret = _awaited(Client.register_secret)
    derive_key = _awaited(Client.derive_key)
    rekey = _awaited(Client.rekey)
    rng_retrieve = _awaited(Client.rng_retrieve)
    activate = _awaited(Client.activate)
    sign = _awaited(Client.sign)
    verify = _awaited(Client.verify)
    encrypt = _awaited(Client.encrypt)
    decrypt = _awaited(Client.decrypt)
    mac = _awaited(Client.mac)
    mac_verify = _awaited(Client.mac_verify)
    rename = _awaited(Client.rename)
    add_attribute = _awaited(Client.add_attribute)
    modify_attribute = _awaited(Client.modify_attribute)
    delete_attribute = _awaited(Client.delete_attribute)
    get = _awaited(Client.get)
    attributes = _awaited(Client.attributes)
    locate = _awaited(Client.locate)
    revoke = _awaited(Client.revoke)
    destroy = _awaited(Client.destroy)


class _Places:
    """The places for connections that a pool has in one process."""

    def __init__(self, size: int) -> None:
        # The ones that were used last are at the end.
        self.free: List[Optional[AsyncClient]] = [None] * size
        # Those that were given back, and whose call, which was cancelled, has not ended.
        self.leaving: Set[AsyncClient] = set()
        self.waiting: Deque[asyncio.Future[Optional[AsyncClient]]] = deque()


class AsyncPool(OfOneProcess):
    """Clients of one server, which the tasks of one loop share, as ``Pool``: up to ``size`` calls
    are made at once, each in a thread. A task that wants a client more waits, in the order of
    asking, and occupies no thread.

    The words are those of ``Client``. A connection is opened when it is first wanted, and looked at
    before it is given out again, as of ``Pool``. A call that is cancelled has lost its connection,
    whose place is free once the call has ended in its thread. A child of a fork has connections of
    its own.

    :param size: the most connections at a time; a task that wants one more waits, at most for
        ``timeout``
    :param max_age: the most seconds that a connection is given out after it was opened; None: as
        long as it lasts
    """

    def __init__(self, *words: Any, size: int = 4, max_age: Optional[float] = None,
                 **settings: Any) -> None:
        super().__init__()
        self._settings = Settings(words, size, max_age, settings)
        self._new = functools.partial(AsyncClient, **self._settings.words)
        self._states: Dict[Process, _Places] = {}
        self._is_closed = False

    def _places(self) -> _Places:
        process = this_process()
        found = self._states.get(process)
        return found or self._states.setdefault(process, _Places(self._settings.size))

    async def __aenter__(self) -> AsyncPool:
        return self

    async def __aexit__(self, *_: object) -> None:
        await self.close()

    async def close(self) -> None:
        """Ends the connections that nobody uses, and each other when it is given back and its calls
        have ended, for which this does not wait."""
        self._is_closed = True
        places = self._places()
        free = [client for client in places.free if client is not None]
        places.free = [None] * len(places.free)
        for client in (*free, *places.leaving):  # all, also where this is cancelled
            client._close_behind()
        for client in free:
            await client.close()

    @contextlib.asynccontextmanager
    async def client(self) -> AsyncIterator[AsyncClient]:
        """A client for the caller alone, until the end of the block.

        :raises ConnectError: there is no connection, or none was free within ``timeout``
        :raises ValueError: the pool is closed
        """
        places = self._places()
        client = await self._place(places)
        if self._is_closed:
            self._give_back(places, client)
            raise ValueError('the pool is closed')
        if client is None:
            client = self._new()
        try:
            if client.is_open and not await client._look(self._settings.max_age):
                client._close_behind()
                client = self._new()
            yield await client.open()
        finally:
            self._give_back(places, client)

    async def _place(self, places: _Places) -> Optional[AsyncClient]:
        """A place of a connection, and the one that it has, when the turn has come."""
        if places.free:
            return places.free.pop()
        loop = asyncio.get_running_loop()
        waiter: asyncio.Future[Optional[AsyncClient]] = loop.create_future()

        def is_late() -> None:
            if not waiter.done():
                waiter.set_exception(self._settings.no_place())

        places.waiting.append(waiter)
        seconds = self._settings.timeout
        clock = None if seconds is None else loop.call_later(seconds, is_late)
        try:
            return await waiter
        except asyncio.CancelledError:
            if not waiter.cancelled() and waiter.exception() is None:   # it came all the same
                self._give_back(places, waiter.result())
            raise
        finally:
            if clock is not None:
                clock.cancel()

    @staticmethod
    def _pass_on(places: _Places, place: Optional[AsyncClient]) -> None:
        while places.waiting:
            waiter = places.waiting.popleft()
            if not waiter.done():
                waiter.set_result(place)
                return
        places.free.append(place)

    def _give_back(self, places: _Places, client: Optional[AsyncClient]) -> None:
        if places is not self._places():    # the block was entered before a fork
            return
        if client is None:
            self._pass_on(places, None)
            return
        places.leaving.discard(client)
        if self._is_closed or not client.is_open:
            _after(client._close_behind(), functools.partial(self._pass_on, places, None))
            return
        last = client._last()
        if last is None:
            self._pass_on(places, client)
        else:
            places.leaving.add(client)
            _after(last, functools.partial(self._give_back, places, client))
