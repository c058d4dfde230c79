"""Connections that are opened again, the pool, and what the logger is told."""
import logging
import threading
import time
import unittest
from typing import Any, Dict, List

from metsuwan import (AsyncPool, Client, ConnectError, ConnectionLost, Item, Pool,
                      ResponseReadError)
from metsuwan.errors import RequestWriteError

from .servers import CERTS, PORTS, client_of, new_user


def came(kmip: Client) -> str:
    return str(kmip.query()['vendor_identification'])


class Reconnect(unittest.TestCase):
    def test_where_nothing_was_sent_the_call_is_made_again(self) -> None:
        with client_of('end_after', reconnect=True) as kmip:
            kmip.activate('k')
            with self.assertLogs('metsuwan', 'WARNING') as log:
                kmip.activate('k')
                kmip.activate('k')
            self.assertEqual(len([line for line in log.output if 'opened again' in line]), 2)
        with client_of('end_after') as kmip:
            kmip.activate('k')
            with self.assertRaises(RequestWriteError):
                kmip.activate('k')

    def test_what_changes_nothing_is_made_again(self) -> None:
        with client_of('first_lost', user=new_user(), password='', reconnect=True) as kmip:
            self.assertEqual(kmip.sign('k', b'x').signature_data, b'signature by k')
            self.assertEqual(came(kmip), '3')
        with client_of('first_lost', user=new_user(), password='', reconnect=True) as kmip:
            kmip.operation('MAC', [Item('UniqueIdentifier', 'k')])
            self.assertEqual(came(kmip), '3')

    def test_what_may_have_been_done_is_not(self) -> None:
        with client_of('first_lost', user=new_user(), password='', reconnect=True) as kmip:
            with self.assertRaises(ResponseReadError):
                kmip.activate('k')
            self.assertTrue(kmip.is_open)
            self.assertEqual(came(kmip), '2')
        with client_of('first_lost', user=new_user(), password='', reconnect=True) as kmip:
            with self.assertRaises(ResponseReadError):
                kmip.operation('Archive', [Item('UniqueIdentifier', 'k')])
            self.assertEqual(came(kmip), '2')

    def test_it_is_made_again_once(self) -> None:
        with client_of('end', reconnect=True) as kmip:
            with self.assertRaises(ResponseReadError):
                kmip.query()

    def test_a_client_that_is_closed_stays_closed(self) -> None:
        kmip = client_of('good', reconnect=True)
        kmip.close()
        self.assertFalse(kmip.is_open)
        with self.assertRaises(ConnectionLost):
            kmip.query()


class Logs(unittest.TestCase):
    def test_it_tells_of_each_call_and_shows_no_value(self) -> None:
        with client_of('good') as kmip, self.assertLogs('metsuwan', logging.DEBUG) as log:
            kmip.sign('the key', b'the data')
            kmip.operation('Encrypt', [Item('UniqueIdentifier', 'the key')])
        text = '\n'.join(log.output)
        for words in ('sign: status 0', 'Encrypt: status 0', 'ms'):
            self.assertIn(words, text)
        for secret in ('the key', 'the%20key', 'the data', 'signature'):
            self.assertNotIn(secret, text)


class Pools(unittest.TestCase):
    def setUp(self) -> None:
        self.settings: Dict[str, Any] = {
            'cert': CERTS + '/client.pem', 'key': CERTS + '/client.key', 'ca': CERTS + '/ca.pem',
            'timeout': 60}

    def test_threads_share_it(self) -> None:
        done: List[bytes] = []
        with Pool('localhost', PORTS['good'], size=2, **self.settings) as pool:
            seen = set()

            def work(at: int) -> None:
                for _ in range(3):
                    with pool.client() as kmip:
                        seen.add(kmip)
                        done.append(kmip.sign('k%d' % at, b'x').signature_data)

            threads = [threading.Thread(target=work, args=(at,)) for at in range(4)]
            for thread in threads:
                thread.start()
            for thread in threads:
                thread.join()
            self.assertLessEqual(len(seen), 2)
        self.assertEqual(sorted(done), sorted([b'signature by k%d' % at for at in range(4)] * 3))
        for kmip in seen:
            with self.assertRaises(ConnectionLost):
                kmip.query()

    def test_a_connection_that_is_lost_is_not_used_again(self) -> None:
        with Pool('localhost', PORTS['end'], size=1, **self.settings) as pool:
            seen = []
            for _ in range(2):
                with self.assertRaises(ConnectionLost), pool.client() as kmip:
                    seen.append(kmip)
                    kmip.query()
            self.assertIsNot(seen[0], seen[1])

    def test_one_that_the_server_has_ended_is_not_given_out(self) -> None:
        with Pool('localhost', PORTS['end_after'], size=1, **self.settings) as pool:
            for _ in range(3):
                with pool.client() as kmip:
                    kmip.activate('k')
        with Pool('localhost', PORTS['two'], size=1, **self.settings) as pool:
            for _ in range(2):      # bytes that no call had asked for
                with pool.client() as kmip:
                    kmip.query()

    def test_a_place_is_waited_for_in_time(self) -> None:
        settings = {**self.settings, 'timeout': 2}
        with Pool('localhost', PORTS['good'], size=1, **settings) as pool, pool.client() as kmip:
            begun = time.monotonic()
            wanted = '^no connection of the pool is free within 2 seconds$'
            with self.assertRaisesRegex(ConnectError, wanted), pool.client():
                pass
            self.assertLess(time.monotonic() - begun, 60)
            kmip.query()

    def test_words_that_are_none(self) -> None:
        for word in ('siz', 'hosts', 'timeouts'):
            for pool in (Pool, AsyncPool):
                with self.assertRaisesRegex(TypeError, word):
                    pool('localhost', **self.settings, **{word: 3})
        for age in (0, -1, True, 'x'):
            with self.assertRaisesRegex(ValueError, 'max_age'):
                Pool('localhost', max_age=age, **self.settings)  # type: ignore[arg-type]

    def test_a_connection_has_an_age(self) -> None:
        for age, is_other in ((0.2, True), (1000, False)):
            with Pool('localhost', PORTS['good'], size=1, max_age=age, **self.settings) as pool:
                with pool.client() as first:
                    first.query()
                time.sleep(0.3)
                with pool.client() as second:
                    second.query()
                self.assertEqual(first is not second, is_other)

    def test_it_is_closed(self) -> None:
        pool = Pool('localhost', PORTS['good'], **self.settings)
        with pool.client() as kmip:
            pool.close()
            kmip.query()
        self.assertFalse(kmip.is_open)
        with self.assertRaises(ValueError), pool.client():
            pass
        for size in (0, True, 'two'):
            with self.assertRaises(ValueError):
                Pool('localhost', size=size)  # type: ignore[arg-type]
