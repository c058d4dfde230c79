"""Clients for asyncio: the order of calls, and what becomes of those that are cancelled."""
import asyncio
import contextlib
import contextvars
import inspect
import os
import signal
import subprocess
import sys
import textwrap
import threading
import time
import unittest
from typing import Any, Awaitable, Callable, Dict, Iterator, List
from unittest import mock

from metsuwan import (AsyncClient, AsyncPool, Client, ConnectError, GrammarError, Item,
                      ItemNotFound, MissingValue, NotDone, OtherObject, RequestWriteError,
                      ResponseReadError)

from .servers import CERTS, LIVE, PORTS, client_of

# What is awaited comes at once, if it comes at all; this is for a busy machine.
LONG = 60
SETTINGS: Dict[str, Any] = {
    'cert': CERTS + '/client.pem', 'key': CERTS + '/client.key', 'ca': CERTS + '/ca.pem',
    'timeout': 60}
# A program that waits for the answer of a server that keeps silent.
CTRL_C = '''import asyncio, sys, metsuwan
certs = sys.argv[2]
async def main():
    async with metsuwan.AsyncClient('localhost', int(sys.argv[1]), cert=certs + '/client.pem',
                                    key=certs + '/client.key', ca=certs + '/ca.pem',
                                    timeout=600) as kmip:
        print('open', flush=True)
        await kmip.query()
asyncio.run(main())
'''


def async_client(fake: str, **settings: Any) -> AsyncClient:
    return AsyncClient('localhost', PORTS[fake], **{**SETTINGS, **settings})


def async_pool(fake: str, **settings: Any) -> AsyncPool:
    return AsyncPool('localhost', PORTS[fake], **{**SETTINGS, **settings})


async def until(holds: Callable[[], bool], what: str) -> None:
    for _ in range(LONG * 100):
        if holds():
            return
        await asyncio.sleep(0.01)
    raise AssertionError('it does not come: ' + what)


class Gate:
    """Holds the threads that come to it, until the loop opens it."""

    def __init__(self) -> None:
        self.came: List[int] = []
        self.within = self.most = 0
        self.lock, self.is_open = threading.Lock(), threading.Event()

    def pass_by(self) -> None:
        with self.lock:
            self.came.append(threading.get_ident())
            self.within += 1
            self.most = max(self.most, self.within)
        assert self.is_open.wait(LONG), 'nobody opened the gate'
        with self.lock:
            self.within -= 1

    async def has(self, count: int) -> None:
        """Waits until so many have come."""
        await until(lambda: len(self.came) >= count, '%d come to the gate' % count)


@contextlib.contextmanager
def held(method: str) -> Iterator[Gate]:
    """Each call of this method of Client comes to the gate first."""
    gate, real = Gate(), getattr(Client, method)

    def hold(kmip: Client, *words: Any, **options: Any) -> Any:
        gate.pass_by()
        return real(kmip, *words, **options)

    with mock.patch.object(Client, method, hold):
        try:
            yield gate
        finally:
            gate.is_open.set()


async def cancelled(task: 'asyncio.Task[Any]') -> None:
    """Cancels a task, which ends at once."""
    task.cancel()
    done, _ = await asyncio.wait([task], timeout=LONG / 2)
    assert done and task.cancelled(), task


async def stays(task: 'asyncio.Task[Any]') -> None:
    """A task does not end while nothing else happens."""
    await asyncio.sleep(0.3)
    assert not task.done(), task


async def in_time(what: Awaitable[Any]) -> Any:
    return await asyncio.wait_for(what, LONG)


class WithLoop(unittest.IsolatedAsyncioTestCase):
    async def asyncSetUp(self) -> None:
        # What these tests do in the loop themselves, as opening a Client, is not to be told of.
        asyncio.get_running_loop().slow_callback_duration = LONG


class Clients(WithLoop):
    def test_it_has_each_method_of_a_client(self) -> None:
        for name, method in inspect.getmembers(Client):
            if name.startswith('_'):
                continue
            with self.subTest(name):
                same = inspect.getattr_static(AsyncClient, name)
                if not callable(method):
                    self.assertIsInstance(same, property)
                    continue
                self.assertEqual(inspect.iscoroutinefunction(same), name != 'batch')
                given, wanted = inspect.signature(same), inspect.signature(method)
                self.assertEqual(given.parameters, wanted.parameters)
                self.assertEqual(same.__qualname__, 'AsyncClient.' + name)
                self.assertTrue(same.__doc__)

    async def test_values_are_those_of_a_client(self) -> None:
        async with async_client('good') as kmip:
            self.assertTrue(kmip.is_open)
            with client_of('good') as good:
                self.assertEqual(await kmip.sign('k', b'x'), good.sign('k', b'x'))
                self.assertEqual(await kmip.query(), good.query())
                self.assertEqual(await kmip.locate(name='k'), good.locate(name='k'))
                self.assertEqual(await kmip.call_texts('sign', 'k', '00'),
                                 good.call_texts('sign', 'k', '00'))
        self.assertFalse(kmip.is_open)

    async def test_an_option_has_any_name(self) -> None:
        async with async_client('good') as kmip:
            for name in ('kmip', 'self', 'method', 'call', 'function'):
                with self.subTest(name), self.assertRaises(GrammarError):
                    await kmip.add_attribute('k', **{name: 'x'})

    async def test_errors_are_those_of_a_client(self) -> None:
        wrong: Any = 5
        calls: List[Any] = [
            ('good', lambda kmip: kmip.call('activat', 'k')),
            ('good', lambda kmip: kmip.sign('k', wrong)),
            ('good', lambda kmip: kmip.locate(name=None)),
            ('batches', lambda kmip: kmip.activate('failing')),
            ('no_attributes', lambda kmip: kmip.attributes('k')),
            ('other_object', lambda kmip: kmip.sign('k', b'x')),
            ('end', lambda kmip: kmip.query())]
        kinds = set()
        for fake, call in calls:
            with self.subTest(fake), client_of(fake) as good:
                with self.assertRaises(Exception) as wanted:
                    call(good)
                async with async_client(fake) as kmip:
                    with self.assertRaises(type(wanted.exception)) as raised:
                        await call(kmip)
                    self.assertIs(type(raised.exception), type(wanted.exception))
                    kinds.add(type(raised.exception))
                    self.assertEqual(str(raised.exception), str(wanted.exception))
                    self.assertEqual(kmip.is_open, good.is_open)
        self.assertEqual(kinds, {GrammarError, TypeError, ItemNotFound, MissingValue, OtherObject,
                                 ResponseReadError})

    async def test_and_so_are_those_of_the_opening(self) -> None:
        settings: List[Any] = [({'limit': -1}, ValueError), ({'limit': '1'}, TypeError),
                               ({'ca': CERTS + '/none.pem'}, ConnectError)]
        for setting, error in settings:
            kmip = async_client('good', **setting)
            with self.subTest(setting), self.assertRaises(error):
                await kmip.open()
            self.assertFalse(kmip.is_open)
            await in_time(kmip.close())

    async def test_without_a_connection_nothing_is_sent(self) -> None:
        kmip = async_client('good')
        with self.assertRaisesRegex(RequestWriteError, 'not open; nothing was sent'):
            await kmip.query()
        with self.assertRaisesRegex(RequestWriteError, 'not open; nothing was sent'):
            kmip.batch()
        self.assertIs(await kmip.open(), kmip)
        self.assertIs(await kmip.open(), kmip)
        await kmip.query()
        for _ in range(2):
            await kmip.close()
        calls: List[Any] = [kmip.query, kmip.open, kmip.batch().call('query').send]
        for call in calls:
            with self.assertRaisesRegex(RequestWriteError, 'closed; nothing was sent'):
                await call()

    async def test_calls_are_made_one_at_a_time_and_in_order(self) -> None:
        async with async_client('good') as kmip:
            with held('_answer_to') as gate:
                names = ['k%d' % at for at in range(4)]
                calls = asyncio.gather(*[kmip.sign(name, b'x') for name in names])
                await gate.has(1)
                await asyncio.sleep(0.2)
                self.assertEqual(len(gate.came), 1)
                gate.is_open.set()
                signed = await in_time(calls)
        self.assertEqual([answer.unique_identifier for answer in signed], names)
        self.assertEqual(gate.most, 1)
        self.assertEqual(len(set(gate.came)), 1)
        self.assertNotIn(threading.get_ident(), gate.came)

    async def test_the_loop_goes_on_while_it_opens_calls_and_closes(self) -> None:
        cases: List[Any] = [('_opened', AsyncClient.open), ('_response', AsyncClient.query),
                            ('close', AsyncClient.close)]
        for method, call in cases:
            kmip = async_client('good')
            if method != '_opened':
                await kmip.open()
            with self.subTest(method), held(method) as gate:
                task = asyncio.ensure_future(call(kmip))
                await gate.has(1)       # (a loop that is held does not come to this)
                await stays(task)
                gate.is_open.set()
                await in_time(task)
            await kmip.close()

    async def test_a_call_whose_turn_has_not_come_is_not_made_when_cancelled(self) -> None:
        async with async_client('good') as kmip:
            with held('_response') as gate:
                first = asyncio.ensure_future(kmip.sign('first', b'x'))
                second = asyncio.ensure_future(kmip.sign('second', b'x'))
                await gate.has(1)
                await cancelled(second)
                gate.is_open.set()
                self.assertEqual((await in_time(first)).unique_identifier, 'first')
                await in_time(kmip.query())
            self.assertEqual(len(gate.came), 2)

    async def test_after_a_call_that_is_cancelled_the_next_gets_its_own_answer(self) -> None:
        async with async_client('good', reconnect=True) as kmip:
            with held('_response') as gate:
                first = asyncio.ensure_future(kmip.sign('first', b'x'))
                await gate.has(1)
                await cancelled(first)
                second = asyncio.ensure_future(kmip.sign('second', b'x'))
                await stays(second)
                self.assertEqual(len(gate.came), 1)
                gate.is_open.set()
                self.assertEqual((await in_time(second)).unique_identifier, 'second')

    async def test_a_call_that_is_cancelled_ends_at_once(self) -> None:
        for fake in ('silent', 'half_hold', 'drip'):
            kmip = await async_client(fake, timeout=3 * LONG).open()
            call = asyncio.ensure_future(kmip.activate('k'))
            await asyncio.sleep(0.3)
            with self.subTest(fake):
                begun = time.monotonic()
                await cancelled(call)
                with self.assertRaisesRegex(RequestWriteError, 'closed; nothing was sent'):
                    await kmip.query()
                await kmip.close()
                self.assertLess(time.monotonic() - begun, LONG / 2)

    async def test_and_so_does_an_opening(self) -> None:
        for fake in ('unanswered', 'unaccepting'):
            kmip = async_client(fake, timeout=3 * LONG)
            opening = asyncio.ensure_future(kmip.open())
            await asyncio.sleep(0.3)
            with self.subTest(fake):
                begun = time.monotonic()
                await cancelled(opening)
                await kmip.close()
                self.assertLess(time.monotonic() - begun, LONG / 2)

    async def test_a_call_that_is_cancelled_is_not_made_again(self) -> None:
        async with async_client('silent', timeout=3 * LONG, reconnect=True) as kmip:
            call = asyncio.ensure_future(kmip.query())
            await asyncio.sleep(0.3)
            with self.assertLogs('metsuwan', 'DEBUG') as log:
                await cancelled(call)
                await until(lambda: kmip._calls == [], 'it has ended')
            self.assertNotIn('again', str(log.output))

    def test_ctrl_c_ends_the_program(self) -> None:
        words = [sys.executable, '-c', CTRL_C, str(PORTS['silent']), CERTS]
        program = subprocess.Popen(words, stdout=subprocess.PIPE, stderr=subprocess.DEVNULL,
                                   env={**os.environ, 'PYTHONPATH': os.pathsep.join(sys.path)})
        with program:
            assert program.stdout is not None
            self.assertEqual(program.stdout.readline(), b'open\n')
            time.sleep(0.3)
            begun = time.monotonic()
            program.send_signal(signal.SIGINT)
            program.wait(LONG)
            self.assertLess(time.monotonic() - begun, LONG / 2)

    async def test_no_answer_is_kept(self) -> None:
        async with async_client('good') as kmip:
            await kmip.query()
            self.assertEqual(kmip._calls, [])
            with held('_response') as gate:
                call = asyncio.ensure_future(kmip.query())
                await gate.has(1)
                await cancelled(call)
                self.assertEqual(len(kmip._calls), 1)
                gate.is_open.set()
                await until(lambda: kmip._calls == [], 'it is forgotten')

    async def test_closing_waits_for_a_call_and_is_done_where_it_is_cancelled(self) -> None:
        kmip = await async_client('good').open()
        client = kmip._ready()
        with held('_response') as gate:
            call = asyncio.ensure_future(kmip.query())
            await gate.has(1)
            await cancelled(call)
            closing = asyncio.ensure_future(kmip.close())
            await stays(closing)
            await cancelled(closing)
            gate.is_open.set()
            await in_time(kmip.close())
        self.assertFalse(client.is_open)

    async def test_an_opening_that_is_cancelled_leaves_no_connection(self) -> None:
        kmip = async_client('good')
        with held('_opened') as gate:
            opening = asyncio.ensure_future(kmip.open())
            await gate.has(1)
            await cancelled(opening)
            gate.is_open.set()
            await in_time(kmip.close())
        self.assertFalse(kmip.is_open)

    async def test_an_opening_that_fails_leaves_no_thread(self) -> None:
        kmip = async_client('wrong_host')
        with held('_opened') as gate:
            gate.is_open.set()
            with self.assertRaises(ConnectError):
                await kmip.open()
        await until(lambda: gate.came[0] not in {thread.ident for thread in threading.enumerate()},
                    'the thread has ended')

    async def test_a_batch(self) -> None:
        async with async_client('batches') as kmip:
            batch = kmip.batch(on_error='Stop').call('query').call('activate', 'failing')
            batch.operation('Archive', [Item('UniqueIdentifier', 'a')])
            with client_of('good') as good:
                query = good.call('query')
            first, second, third = await batch.send()
            self.assertEqual(first, query)
            self.assertIsInstance(second, ItemNotFound)
            self.assertIsInstance(third, NotDone)
            with self.assertRaisesRegex(GrammarError, 'no calls'):
                await kmip.batch().send()
            with self.assertRaises(GrammarError):
                kmip.batch().call('activat', 'k')

    async def test_a_batch_has_the_calls_that_were_added_before_it_was_sent(self) -> None:
        async with async_client('batches') as kmip:
            with held('_send') as gate:
                batch = kmip.batch().call('activate', 'a')
                sending = asyncio.ensure_future(batch.send())
                await gate.has(1)
                batch.call('activate', 'b')
                gate.is_open.set()
                self.assertEqual(await in_time(sending), [{}])
            self.assertEqual(await batch.send(), [{}, {}])

    async def test_the_example_of_the_readme(self) -> None:
        readme = (LIVE.parents[1] / 'clients' / 'python' / 'README.md').read_text(encoding='utf-8')
        example = readme.partition('\n## asyncio\n')[2].partition('```python\n')[2]
        lines = textwrap.indent(example.partition('```')[0], '    ')

        def pool(host: str, size: int, **settings: str) -> AsyncPool:
            self.assertEqual((host, {*settings}), ('localhost', {'cert', 'key', 'ca'}))
            return async_pool('batches', size=size)

        names: Dict[str, Any] = {'AsyncPool': pool, 'key': 'k'}
        exec('async def example():\n' + lines + '    return signature, activated, signed\n', names)
        signature, activated, signed = await names['example']()
        self.assertEqual((signature, activated), (b'signature by k', {}))
        self.assertEqual(bytes.fromhex(signed['signature_data']), signature)

    async def test_a_record_is_told_in_the_context_of_the_call(self) -> None:
        asked: contextvars.ContextVar[str] = contextvars.ContextVar('asked', default='nobody')
        told: List[str] = []
        async with async_client('good', record=lambda _: told.append(asked.get())) as kmip:
            asked.set('alice')
            await kmip.query()
        self.assertEqual(told, ['alice'])


class Pools(WithLoop):
    async def test_so_many_calls_at_once_and_no_more(self) -> None:
        async with async_pool('good', size=2) as pool:
            async def sign(name: str) -> str:
                async with pool.client() as kmip:
                    return (await kmip.sign(name, b'x')).unique_identifier

            with held('_response') as gate:
                names = ['k%d' % at for at in range(6)]
                calls = asyncio.gather(*map(sign, names))
                await gate.has(2)
                await asyncio.sleep(0.3)
                self.assertEqual(len(gate.came), 2)
                gate.is_open.set()
                self.assertEqual(await in_time(calls), names)
            self.assertEqual(gate.most, 2)
            self.assertEqual(len(set(gate.came)), 2)

    async def test_a_connection_is_used_again(self) -> None:
        async with async_pool('good') as pool:
            seen = set()
            for _ in range(5):
                async with pool.client() as kmip:
                    await kmip.query()
                    seen.add(kmip)
        self.assertEqual(len(seen), 1)
        self.assertFalse(kmip.is_open)

    async def test_one_that_the_server_has_ended_is_not_given_out(self) -> None:
        for fake in ('end_after', 'two'):
            async with async_pool(fake, size=1) as pool:
                for _ in range(3):
                    async with pool.client() as kmip:
                        await kmip.query()

    async def test_a_place_is_waited_for_in_time(self) -> None:
        async with async_pool('good', size=1, timeout=2) as pool, pool.client() as kmip:
            wanted = '^no connection of the pool is free within 2 seconds$'
            with self.assertRaisesRegex(ConnectError, wanted):
                async with pool.client():
                    pass
            await kmip.query()
            waits = asyncio.ensure_future(pool.client().__aenter__())
            await asyncio.sleep(0.1)
            await cancelled(waits)
        self.assertFalse(kmip.is_open)

    async def test_a_connection_has_an_age(self) -> None:
        async with async_pool('good', size=1, max_age=0.2) as pool:
            async with pool.client() as first:
                await first.query()
            await asyncio.sleep(0.3)
            async with pool.client() as second:
                await second.query()
        self.assertIsNot(first, second)

    async def test_turns_come_in_the_order_of_asking(self) -> None:
        turns: List[str] = []
        async with async_pool('good', size=1) as pool:
            async def work(name: str) -> None:
                for _ in range(3):
                    async with pool.client() as kmip:
                        turns.append(name)
                        await kmip.query()

            await in_time(asyncio.gather(work('a'), work('b')))
        self.assertEqual(turns, ['a', 'b'] * 3)

    async def test_a_client_is_not_given_while_a_cancelled_call_uses_it(self) -> None:
        async with async_pool('good', size=1) as pool:
            seen = []

            async def sign(name: str) -> str:
                async with pool.client() as kmip:
                    seen.append(kmip)
                    return (await kmip.sign(name, b'x')).unique_identifier

            with held('_response') as gate:
                first = asyncio.ensure_future(sign('first'))
                await gate.has(1)
                await cancelled(first)      # its task goes on, while the call does, too
                second = asyncio.ensure_future(sign('second'))
                await stays(second)
                self.assertEqual(len(seen), 1)
                gate.is_open.set()
                self.assertEqual(await in_time(second), 'second')
            self.assertEqual(await in_time(sign('third')), 'third')
        # The first has lost its connection.
        self.assertEqual([seen[1] is seen[2], len(set(seen))], [True, 2])

    async def test_an_opening_that_is_cancelled_counts_until_it_has_ended(self) -> None:
        async def query() -> None:
            async with pool.client() as kmip:
                await kmip.query()

        async with async_pool('good', size=1) as pool:
            with held('_opened') as gate:
                first = asyncio.ensure_future(query())
                await gate.has(1)
                await cancelled(first)
                second = asyncio.ensure_future(query())
                await stays(second)
                self.assertEqual(len(gate.came), 1)
                gate.is_open.set()
                await in_time(second)

    async def test_a_turn_that_is_cancelled_is_anothers(self) -> None:
        async def query() -> None:
            async with pool.client() as kmip:
                await kmip.query()

        async with async_pool('good', size=1) as pool:
            # Before it has come, and when it came but was not taken yet.
            for has_come in (False, True):
                async with pool.client():
                    waiting = asyncio.ensure_future(query())
                    await asyncio.sleep(0)
                    if not has_come:
                        await cancelled(waiting)
                if has_come:
                    await cancelled(waiting)
                with self.subTest(has_come):
                    await in_time(query())

    async def test_a_connection_that_is_lost_is_not_used_again(self) -> None:
        async with async_pool('end', size=1) as pool:
            seen = []
            for _ in range(2):
                with self.assertRaises(ResponseReadError):
                    async with pool.client() as kmip:
                        seen.append(kmip)
                        await kmip.query()
            self.assertIsNot(seen[0], seen[1])

    async def test_an_opening_that_fails_leaves_the_pool_its_size(self) -> None:
        async with async_pool('wrong_host', size=1) as pool:
            for _ in range(3):
                with self.assertRaises(ConnectError):
                    async with pool.client():
                        pass

    async def test_it_is_closed(self) -> None:
        pool = async_pool('good', size=1)
        async with pool.client() as kmip:
            waiting = [asyncio.ensure_future(self.refused(pool)) for _ in range(2)]
            await asyncio.sleep(0)
            await in_time(pool.close())
            await kmip.query()
        await in_time(asyncio.gather(*waiting))
        self.assertFalse(kmip.is_open)
        await self.refused(pool)

    async def test_a_client_that_comes_when_the_pool_is_closed_is_closed(self) -> None:
        pool = async_pool('good', size=1)
        async with pool.client() as kmip:
            waiting = asyncio.ensure_future(self.refused(pool))
            await asyncio.sleep(0)
        await pool.close()      # the waiting task has its turn, and was not run since
        await in_time(waiting)
        self.assertFalse(kmip.is_open)

    async def refused(self, pool: AsyncPool) -> None:
        with self.assertRaisesRegex(ValueError, 'closed'):
            async with pool.client():
                pass

    def test_sizes_that_are_none(self) -> None:
        for size in (0, True, 'two'):
            with self.subTest(size), self.assertRaises(ValueError):
                AsyncPool('localhost', size=size)  # type: ignore[arg-type]

    def test_a_pool_may_be_made_without_a_loop_and_serve_one_after_another(self) -> None:
        pool = async_pool('good', size=1)

        async def query() -> None:
            async with pool.client() as kmip:
                await kmip.query()

        for _ in range(2):
            asyncio.run(query())
        asyncio.run(pool.close())

    def test_a_loop_may_end_before_a_cancelled_call(self) -> None:
        clients: List[Client] = []

        async def leave(gate: Gate) -> None:
            async with async_pool('good', size=1) as pool:
                async with pool.client() as kmip:
                    clients.append(kmip._ready())
                    call = asyncio.ensure_future(kmip.query())
                    await gate.has(1)
                    await cancelled(call)

        with mock.patch('logging.Logger.exception') as told:
            with held('_response') as gate:
                asyncio.run(leave(gate))
                self.assertTrue(clients[0].is_open)
                gate.is_open.set()
                for thread in threading.enumerate():
                    if thread.name.startswith('metsuwan'):
                        thread.join(LONG)
        self.assertFalse(clients[0].is_open)
        told.assert_not_called()


if __name__ == '__main__':
    unittest.main()
