#!/usr/bin/env python3
"""Threads, or tasks, that call several servers, each so often:

    crowd.py clients|pool|tasks HOW-MANY CALLS SECONDS SERVERS CERTIFICATE KEY AUTHORITY

For each change, and each signature, whose name begins with s, there is a line: `NAME STATUS SENT`.
"""
import asyncio
import contextlib
import pathlib
import sys
import threading
import time
from typing import Any, ContextManager, Dict, List

sys.path.insert(0, str(pathlib.Path(__file__).resolve().parents[2]))
from metsuwan import AsyncPool, Client, ConnectionLost, Pool, Signed  # noqa: E402

SIZE = 50
TOLD: List[str] = []


def tell(name: str, error: Any = None, made: Any = None) -> None:
    wanted = b'signature by ' + name.encode()
    is_right = not isinstance(made, Signed) or made.signature_data == wanted
    status = 0 if error is None and is_right else 3
    TOLD.append('%s %d %d' % (name, status, error is None or error.was_sent))


def names(at: int, calls: int) -> List[str]:
    return ['%s%d.%d' % (kind, at, number) for number in range(calls) for kind in 'cs']


def call(kmip: Any, name: str) -> Any:
    return kmip.sign(name, b'x') if name.startswith('s') else kmip.activate(name)


def opened(settings: Dict[str, Any]) -> Client:
    """A client, once a server is there: both may be dead at once."""
    for _ in range(100):
        with contextlib.suppress(ConnectionLost):
            return Client(**settings)
        time.sleep(0.2)
    raise SystemExit('no server is there')


def by_threads(at: int, calls: int, way: str, pool: Pool, settings: Dict[str, Any]) -> None:
    none: ContextManager[Any] = contextlib.nullcontext()
    with opened(settings) if way == 'clients' else none as client:
        for name in names(at, calls):
            try:
                with contextlib.ExitStack() as stack:
                    kmip = client or stack.enter_context(pool.client())
                    tell(name, None, call(kmip, name))
            except ConnectionLost as error:
                tell(name, error)


async def by_tasks(count: int, calls: int, settings: Dict[str, Any]) -> None:
    async with AsyncPool(size=SIZE, **settings) as pool:
        async def work(at: int) -> None:
            for name in names(at, calls):
                try:
                    async with pool.client() as kmip:
                        tell(name, None, await call(kmip, name))
                except ConnectionLost as error:
                    tell(name, error)

        await asyncio.gather(*map(work, range(count)))


def main() -> None:
    way, count, calls, seconds, server, cert, key, ca = sys.argv[1:]
    settings: Dict[str, Any] = {'server': server, 'order': 'turns', 'timeout': float(seconds),
                                'cert': cert, 'key': key, 'ca': ca}
    if way == 'tasks':
        asyncio.run(by_tasks(int(count), int(calls), settings))
    else:
        with Pool(size=SIZE, **settings) as pool:
            words = int(calls), way, pool, settings
            threads = [threading.Thread(target=by_threads, args=(at, *words))
                       for at in range(int(count))]
            for thread in threads:
                thread.start()
            for thread in threads:
                thread.join()
    print('\n'.join(TOLD))


main()
