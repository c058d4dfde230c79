"""Forks after a client is open: the connection stays the parent's, whatever a child does."""
import asyncio
import ctypes
import multiprocessing
import os
import pickle
import threading
import time
import unittest
from typing import Any, Callable, Dict

from metsuwan import AsyncClient, AsyncPool, Client, KmipError, Pool

from .servers import CERTS, PORTS, client_of

SETTINGS: Dict[str, Any] = {'cert': CERTS + '/client.pem', 'key': CERTS + '/client.key',
                            'ca': CERTS + '/ca.pem', 'timeout': 60}
REFUSED = "RequestWriteError the connection is another process's; nothing was sent"
# A child that waits for a lock which nobody opens would wait for ever.
LONG = 60


def said_in_child(work: Callable[[], object], fork: Callable[[], int] = os.fork) -> str:
    """What this comes to in the child of a fork."""
    reads, writes = os.pipe()
    pid = fork()
    if not pid:
        try:
            try:
                said = str(work())
            except KmipError as error:
                said = '%s %s' % (type(error).__name__, error)
            os.write(writes, said.encode())
        finally:
            os._exit(0)
    os.close(writes)
    end = threading.Timer(LONG, os.kill, (pid, 9))
    end.start()
    with os.fdopen(reads, 'rb') as file:
        said = file.read().decode()
    os.waitpid(pid, 0)
    end.cancel()
    end.join()
    return said


def signs(kmip: Client, name: str) -> bytes:
    return kmip.sign(name, b'x').signature_data


def used(pool: Pool, name: str) -> bytes:
    with pool.client() as kmip:
        return signs(kmip, name)


class Clients(unittest.TestCase):
    def still_good(self, kmip: Client) -> None:
        self.assertEqual(signs(kmip, 'PARENT'), b'signature by PARENT')

    def test_calls_of_a_child_are_refused(self) -> None:
        for reconnect in (False, True):
            with self.subTest(reconnect), client_of('good', reconnect=reconnect) as kmip:
                batch = kmip.batch().call('query')
                calls: Dict[str, Callable[[], object]] = {
                    'sign': lambda: signs(kmip, 'CHILD'), 'batch': batch.send,
                    'operation': lambda: kmip.operation('Archive', '{"tag":"RequestPayload",'
                                                        '"value":[]}')}
                for name, call in calls.items():
                    self.assertEqual(said_in_child(call), REFUSED, name)
                self.assertEqual(said_in_child(lambda: (kmip.is_open, 'closed' in repr(kmip))),
                                 '(False, True)')
                self.still_good(kmip)

    def test_a_fork_that_python_does_not_know_of(self) -> None:
        libc = ctypes.PyDLL(None)
        with client_of('good') as kmip:
            self.assertEqual(said_in_child(lambda: signs(kmip, 'CHILD'), libc.fork), REFUSED)
            self.still_good(kmip)
            self.assertEqual(said_in_child(kmip.close, libc.fork), 'None')
            self.still_good(kmip)

    def test_a_child_that_leaves_its_block_ends_nothing(self) -> None:
        def leave() -> None:
            kmip.__exit__(None, None, None)

        with client_of('good') as kmip:
            for end in (kmip.close, leave):
                self.assertEqual(said_in_child(end), 'None')
                self.still_good(kmip)

    def test_a_child_that_lives_on_does_not_hold_the_connection(self) -> None:
        with client_of('ends', user='forks', password='x') as kmip:
            kmip.query()
            reads, writes = os.pipe()
            pid = os.fork()
            if not pid:
                os.close(writes)
                os.read(reads, 1)
                os._exit(0)
            os.close(reads)
            # The end of the socket alone: what close says to the server would end it too.
            assert kmip._wire is not None
            kmip._wire.close(False)
        with client_of('ends', user='forks', password='x') as kmip:
            self.assertEqual(kmip.query()['vendor_identification'], 'torn')
        os.close(writes)
        os.waitpid(pid, 0)

    def test_a_lock_that_a_thread_of_the_parent_has(self) -> None:
        with client_of('slow') as kmip:
            busy = threading.Thread(target=kmip.activate, args=('slow',))
            busy.start()
            while not kmip._is_busy:
                time.sleep(0.01)
            self.assertEqual(said_in_child(lambda: signs(kmip, 'CHILD')), REFUSED)
            self.assertEqual(said_in_child(kmip.close), 'None')
            busy.join()
            self.still_good(kmip)

    def test_none_is_pickled_or_copied(self) -> None:
        with client_of('good') as kmip, Pool('localhost', **SETTINGS) as pool:
            asynchronous = AsyncClient('localhost', **SETTINGS), AsyncPool('localhost', **SETTINGS)
            for made in (kmip, pool, *asynchronous):
                wanted = 'a %s has connections of its process' % type(made).__name__
                with self.subTest(wanted), self.assertRaisesRegex(TypeError, wanted):
                    pickle.dumps(made)


class Pools(unittest.TestCase):
    def test_a_child_has_connections_of_its_own(self) -> None:
        with _POOL as pool:
            self.assertEqual(used(pool, 'PARENT'), b'signature by PARENT')
            with multiprocessing.get_context('fork').Pool(4) as processes:
                names = ['k%d' % at for at in range(40)]
                made = processes.map(_in_process, names)
            self.assertEqual(made, [b'signature by ' + name.encode() for name in names])
            self.assertEqual(used(pool, 'PARENT'), b'signature by PARENT')

    def test_also_where_all_places_are_taken(self) -> None:
        with Pool('localhost', PORTS['good'], size=2, **SETTINGS) as pool:
            with pool.client() as first, pool.client(), pool._state().lock:
                self.assertEqual(said_in_child(lambda: used(pool, 'CHILD')),
                                 "b'signature by CHILD'")
                self.assertEqual(said_in_child(lambda: signs(first, 'CHILD')), REFUSED)
            for end in (lambda: pool.close(), lambda: pool.__exit__(None, None, None)):
                self.assertEqual(said_in_child(end), 'None')
            self.assertEqual(used(pool, 'PARENT'), b'signature by PARENT')

    def test_a_child_leaves_a_block_that_was_entered_before(self) -> None:
        def leave() -> None:
            block.__exit__(None, None, None)

        with Pool('localhost', PORTS['good'], size=1, **SETTINGS) as pool:
            block = pool.client()
            kmip = block.__enter__()
            with pool._state().lock:
                self.assertEqual(said_in_child(leave), 'None')
            self.assertEqual(signs(kmip, 'PARENT'), b'signature by PARENT')
            leave()


# That of a module, as processes of multiprocessing find it.
_POOL = Pool('localhost', PORTS['good'], size=2, **SETTINGS)


def _in_process(name: str) -> bytes:
    return used(_POOL, name)


class Asynchronous(unittest.TestCase):
    def test_a_client_is_refused(self) -> None:
        async def parent() -> None:
            async with AsyncClient('localhost', PORTS['good'], **SETTINGS) as kmip:
                def child() -> object:
                    return asyncio.run(in_child(kmip))

                self.assertEqual(said_in_child(child), REFUSED)
                signed = await kmip.sign('PARENT', b'x')
                self.assertEqual(signed.signature_data, b'signature by PARENT')

        async def in_child(kmip: AsyncClient) -> object:
            try:
                return await kmip.sign('CHILD', b'x')
            finally:
                await kmip.close()

        asyncio.run(parent())

    def test_a_pool_has_others(self) -> None:
        async def use(pool: AsyncPool, name: str) -> bytes:
            async with pool.client() as kmip:
                return (await kmip.sign(name, b'x')).signature_data

        async def parent() -> None:
            async with AsyncPool('localhost', PORTS['good'], size=1, **SETTINGS) as pool:
                async with pool.client():
                    said = said_in_child(lambda: asyncio.run(use(pool, 'CHILD')))
                self.assertEqual(said, "b'signature by CHILD'")
                self.assertEqual(await use(pool, 'PARENT'), b'signature by PARENT')

        asyncio.run(parent())


if __name__ == '__main__':
    unittest.main()
