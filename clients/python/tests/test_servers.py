"""Several servers: how their list is read, which is asked, and what becomes of a call where one
fails."""
import contextlib
import socket
import ssl
import threading
import time
import unittest
from typing import Any, Callable, Dict, Iterator, List, Tuple
from unittest import mock

from metsuwan import (AsyncPool, Client, ConnectError, ConnectionLost, Pool, ResponseReadError,
                      ServerError)
from metsuwan.servers import Servers, servers_of

from .messages import identifier, octets, response
from .servers import CERTS, PORTS

SETTINGS: Dict[str, Any] = {'cert': CERTS + '/client.pem', 'key': CERTS + '/client.key',
                            'ca': CERTS + '/ca.pem'}
MAY_BE_DONE = '; it may have been done there, and was sent to no other server'


def texts_of(server: Any, order: str = 'first') -> List[str]:
    return [it.text for it in servers_of(None, None, server, order).all]


def list_of(*fakes: str) -> str:
    return ','.join('localhost:%d' % PORTS[fake] for fake in fakes)


def client_of(*fakes: str, timeout: float = 60, **settings: Any) -> Client:
    return Client(server=list_of(*fakes), timeout=timeout, **{**SETTINGS, **settings})


class Lists(unittest.TestCase):
    def test_what_a_list_says(self) -> None:
        whole = ['a.example:5696', 'b.example:5696', '[::1]:5697']
        self.assertEqual(texts_of('a.example:5696,b.example,[::1]:5697'), whole)
        self.assertEqual(texts_of(['a.example', 'b.example', '[::1]:5697']), whole)
        self.assertEqual(texts_of('[::1]'), ['[::1]:5696'])
        self.assertEqual(len(texts_of(','.join('a%d' % at for at in range(16)))), 16)

    def test_lists_that_are_none(self) -> None:
        no_place, no_form = 'an empty place', r'what is no HOST, HOST:PORT or \[ADDRESS\]:PORT'
        rows = [('', no_place), ('a,', no_place), (',a', no_place), ('a,,b', no_place),
                ([], no_place), ('a b', 'a space'), ('a, b', 'a space'), ('::1', no_form),
                ('a:', no_form), ('a:1:2', no_form), ('[::1]5697', no_form), ('[::1]:', no_form),
                ('[]:1', 'a bracket without an address'), ('[::1', 'a bracket without an address'),
                ('a,a:5696', 'one twice'), ('a,A:5696', 'one twice'), ('a\tb', 'a space'),
                ('a\n', 'a space'), ('a' * 301, 'a server that is too long'),
                (','.join('a%d' % at for at in range(17)), 'more than 16')]
        for server, wanted in rows:
            with self.subTest(server), self.assertRaisesRegex(ValueError, '^server has ' + wanted):
                texts_of(server)
        for server in ('a:70000', 'a:0', '.a'):
            with self.subTest(server), self.assertRaises(ValueError):
                texts_of(server)
        for wrong in (5, [5], b'a'):
            with self.subTest(wrong), self.assertRaisesRegex(TypeError, 'server is a text'):
                texts_of(wrong)

    def test_settings_that_do_not_go_together(self) -> None:
        settings: List[Tuple[Dict[str, Any], str]] = [
            ({'host': 'a', 'server': 'b'}, 'server stands in the place of host and port'),
            ({'port': 1, 'server': 'b'}, 'server stands in the place of host and port'),
            ({'server': 'b', 'order': 'last'}, 'order is first or turns'),
            ({'server': 'b', 'server_name': ''}, 'server_name is no name, and no address'),
            ({'server': 'b', 'server_name': '.b'}, 'server_name is no name, and no address'),
            ({'server': 'b', 'max_age': 0}, 'a max_age is a number of seconds')]
        for setting, wanted in settings:
            for make in (Client, Pool, AsyncPool):
                with self.subTest(setting), self.assertRaisesRegex(ValueError, wanted):
                    make(**SETTINGS, **setting)
                    raise ValueError(wanted)    # (a pool opens nothing yet)
        with self.assertRaisesRegex(TypeError, 'a host or a server'):
            Client(**SETTINGS)


class Order(unittest.TestCase):
    def test_the_first_that_is_not_left_out(self) -> None:
        servers = servers_of(None, None, 'a,b,c', 'first')
        a, b, c = servers.all
        self.assertEqual([servers.next([]), servers.next([a]), servers.next([a, b, c])],
                         [a, b, None])
        pause = a.has_failed('why', False)
        self.assertTrue(0.8 <= pause <= 1.2 and 0 < a.out() <= 1.2)
        self.assertIs(servers.next([]), b)
        for _ in range(2):
            b.has_failed('why', False)
        c.has_failed('why', True)
        # All are left out: the soonest, but not one that refused the certificate.
        self.assertEqual([servers.next([]), servers.next([a, b])], [a, None])
        # One call goes to see; the others have others.
        self.assertIs(servers.next([]), b)
        self.assertTrue(a.has_answered() and not a.has_answered() and a.out() == 0)
        self.assertIs(servers.next([]), a)

    def test_pauses_are_doubled_up_to_a_minute(self) -> None:
        server = servers_of('a', None, None, 'first').all[0]
        with mock.patch('random.uniform', return_value=0.0):
            pauses = [server.has_failed('why', False) for _ in range(40)]
        self.assertEqual(pauses[:8], [1, 2, 4, 8, 16, 32, 60, 60])
        self.assertEqual(pauses[-1], 60)
        with mock.patch('random.uniform', side_effect=lambda low, high: high):
            self.assertEqual(server.has_failed('why', False), 72)

    def test_all_connections_that_end_with_their_server_are_one_failure(self) -> None:
        server = servers_of('a', None, None, 'first').all[0]
        began = time.monotonic()
        with mock.patch('random.uniform', return_value=0.0):
            pauses = [server.has_failed('why', False, began) for _ in range(40)]
            self.assertEqual(server.failures, 1)
            self.assertEqual(pauses[0], 1)
            self.assertTrue(all(0 < pause <= 1 for pause in pauses))
            # One that began since then has failed by itself.
            self.assertEqual(server.has_failed('why', False, time.monotonic()), 2)
        # That of a server which has answered since then is a first one.
        server.has_answered()
        self.assertLessEqual(server.has_failed('why', False, began), 1.2)
        self.assertEqual(server.failures, 1)

    def test_by_turns_each_connection_goes_to_the_next(self) -> None:
        servers = servers_of(None, None, 'a,b,c', 'turns')
        taken = [servers.next([]) for _ in range(6)]
        self.assertEqual(len(set(taken[:3])), 3)
        self.assertEqual(taken[:3], taken[3:])


class Failing(unittest.TestCase):
    def test_a_server_that_cannot_be_reached(self) -> None:
        for bad, why in (('nobody', 'refused'), ('other/server', 'issuer'), ('no_tls', 'wrong'),
                         ('wrong_host', 'mismatch'), ('refuses_early', 'refused the certificate'),
                         ('no_certificate', '')):
            with self.subTest(bad), self.assertLogs('metsuwan', 'WARNING') as log:
                with client_of(bad, 'good') as kmip:
                    kmip.activate('k')
                    self.assertIn('localhost:%d,' % PORTS['good'], repr(kmip))
            self.assertRegex(log.output[0], 'localhost:%d: .*%s.*: it is left out for [01]\\.. s'
                             % (PORTS[bad], why))

    def test_one_error_says_what_failed_with_each(self) -> None:
        with self.assertRaises(ConnectError) as raised:
            client_of('nobody', 'other/server')
        first, second = str(raised.exception).split('; ')
        self.assertRegex(first, '^localhost:%d: .*refused' % PORTS['nobody'])
        self.assertRegex(second, '^localhost:%d: .*issuer' % PORTS['other/server'])
        self.assertIsInstance(raised.exception.__cause__, ssl.SSLError)
        with self.assertRaises(ConnectError) as raised:     # that of one server is as it was
            client_of('nobody')
        self.assertNotIn(str(PORTS['nobody']), str(raised.exception))

    def test_servers_that_hang_in_the_handshake(self) -> None:
        for bad in ('unanswered', 'unaccepting'):
            begun = time.monotonic()
            with self.subTest(bad), client_of(bad, 'good', timeout=8) as kmip:
                kmip.activate('k')
            self.assertLess(time.monotonic() - begun, 8)
        with self.assertRaises(ConnectError) as raised:
            client_of('unanswered', 'unaccepting', 'nobody', timeout=1)
        self.assertRegex(str(raised.exception), 'no answer within 0.33.* seconds; ')

    def test_a_certificate_that_is_refused(self) -> None:
        # Nothing was read of what was sent, so it may change something.
        for bad in ('refuses', 'refuses_early'):
            with self.subTest(bad), client_of(bad, 'good') as kmip:
                kmip.activate('k')
        with client_of('refuses', reconnect=True) as kmip:
            with self.assertRaisesRegex(ConnectError, '^the server refused the certificate: unk'):
                kmip.activate('k')
            wanted = '^left out for [01] s more: the server refused the certificate: unknown CA$'
            with self.assertRaisesRegex(ConnectError, wanted) as raised:
                kmip.activate('k')
            self.assertFalse(raised.exception.was_sent)

    def test_a_name_apart_from_the_host(self) -> None:
        settings: Dict[str, Any] = {**SETTINGS, 'timeout': 60}
        for host in ('127.0.0.1', 'localhost'):
            server = '%s:%d' % (host, PORTS['good'])
            with Client(server=server, server_name='localhost', **settings) as kmip:
                kmip.query()
            with self.assertRaisesRegex(ConnectError, 'mismatch'):
                Client(server=server, server_name='other.example', **settings)
        with Client('127.0.0.1', PORTS['good'], server_name='localhost', **settings) as kmip:
            kmip.query()


class Calls(unittest.TestCase):
    def test_what_changes_nothing_is_asked_of_the_next(self) -> None:
        for bad in ('end', 'reset', 'half'):
            with self.subTest(bad), client_of(bad, 'good') as kmip:
                self.assertEqual(kmip.sign('k', b'x').signature_data, b'signature by k')
                kmip.activate('k')      # by the other
                kmip.rng_retrieve(5)

    def test_what_makes_or_changes_is_sent_to_no_other(self) -> None:
        with client_of('end', 'good') as kmip:
            with self.assertRaises(ResponseReadError) as raised:
                kmip.activate('k')
            self.assertEqual(str(raised.exception),
                             'localhost:%d: end of input' % PORTS['end'] + MAY_BE_DONE)
            self.assertTrue(raised.exception.was_sent)
            kmip.activate('k')          # the next call goes to the other
            with self.assertRaises(ResponseReadError):
                client_of('end', 'good').batch().call('query').call('activate', 'k').send()

    def test_after_an_idle_end_nothing_is_left_out(self) -> None:
        with client_of('end_after', 'good') as kmip, self.assertLogs('metsuwan', 'WARNING') as log:
            for _ in range(3):
                kmip.activate('k')
                self.assertIn(str(PORTS['end_after']), repr(kmip))
        self.assertNotIn('left out', str(log.output))

    def test_an_answer_is_an_answer(self) -> None:
        with client_of('no_batches', 'good') as kmip, self.assertRaises(ServerError):
            kmip.sign('k', b'x')
        with client_of('rubbish', 'good') as kmip, self.assertRaises(ConnectionLost):
            kmip.sign('k', b'x')

    def test_a_server_that_hangs(self) -> None:
        begun = time.monotonic()
        with client_of('silent', 'good', timeout=8) as kmip:
            self.assertEqual(kmip.sign('k', b'x').signature_data, b'signature by k')
            self.assertLess(time.monotonic() - begun, 8)
        with client_of('silent', 'good', timeout=2) as kmip:
            with self.assertRaisesRegex(ResponseReadError, 'within 2 seconds' + MAY_BE_DONE):
                kmip.activate('k')
        with self.assertRaisesRegex(ResponseReadError, '; ') as raised:
            client_of('silent', 'half_hold', timeout=2).query()
        self.assertTrue(raised.exception.was_sent)

    def test_one_that_has_begun_to_answer_is_slow_and_not_dead(self) -> None:
        with client_of('drip', 'silent', timeout=1.5) as kmip:
            with self.assertRaisesRegex(ResponseReadError, 'within 1.5 seconds') as raised:
                kmip.query()
        self.assertRegex(str(raised.exception), '; .*: not tried within the time$')

    def test_so_is_one_that_answers_others(self) -> None:
        with Pool(server=list_of('slow', 'silent'), size=2, timeout=5, **SETTINGS) as pool:
            with pool.client() as first, pool.client() as second:
                slow = threading.Thread(target=first.sign, args=('slow', b'x'))     # 3 seconds
                slow.start()
                time.sleep(0.2)

                def answer() -> None:
                    time.sleep(1)
                    second.sign('k', b'x')

                other = threading.Thread(target=answer)
                other.start()
                other.join()
                slow.join()
                self.assertIn(str(PORTS['slow']), repr(first))

    def test_an_older_connection_begins_in_front(self) -> None:
        with client_of('nobody', 'good', max_age=1000) as kmip:
            kmip.query()
            tries: List[str] = []
            real = Servers.next

            def seen(servers: Servers, tried: Any) -> Any:
                found = real(servers, tried)
                tries.append(found.text if found else '')
                return found

            with mock.patch.object(Servers, 'next', seen):
                kmip.query()
                self.assertEqual(tries, [])
                assert kmip._wire is not None
                kmip._wire.since -= 2000
                kmip._servers.all[0].out_until = 0
                kmip.query()
        self.assertEqual(tries, list_of('nobody', 'good').split(','))

    def test_a_call_that_is_pending_is_asked_about_where_it_is(self) -> None:
        with client_of('pending', 'good') as kmip:
            with contextlib.suppress(Exception):
                kmip.sign('k', b'x')
            at = kmip._at
            self.assertIs(kmip._pending_at, at)
            kmip._end(False)
            at.has_failed('it is left out', False)
            with contextlib.suppress(Exception):
                kmip.call('poll', b'12345678')
            self.assertIs(kmip._at, at)


class Crowd(unittest.TestCase):
    def test_while_servers_die_by_turns_no_change_is_read_twice(self) -> None:
        with two_servers() as (ports, came, die):
            server = ','.join('localhost:%d' % port for port in ports)
            told = {'done': 0, 'lost': 0}
            lock, are_open = threading.Lock(), threading.Barrier(9)

            def work(at: int) -> None:
                with Client(server=server, timeout=60, order='turns', **SETTINGS) as kmip:
                    are_open.wait()
                    for number in range(20):
                        try:
                            kmip.activate('k%d.%d' % (at, number))
                            what = 'done'
                        except ConnectionLost as error:
                            what = 'lost'
                            assert error.was_sent or 'k%d.%d' % (at, number) not in came
                        with lock:
                            told[what] += 1
                        signed = kmip.sign('s%d.%d' % (at, number), b'x')
                        assert signed.signature_data == b'x'

            threads = [threading.Thread(target=work, args=(at,)) for at in range(8)]
            for thread in threads:
                thread.start()
            are_open.wait()
            while any(thread.is_alive() for thread in threads):
                die()
                time.sleep(0.5)
        changes = [name for name in came if name.startswith('k')]
        self.assertEqual(len(changes), len(set(changes)), 'no change is read twice')
        self.assertEqual(sum(told.values()), 160)
        self.assertGreaterEqual(len(changes), told['done'])
        self.assertGreater(told['done'], 50)


def _value(request: bytes, tag: int) -> bytes:
    """The first value of a text or bytes with this tag."""
    at = request.index(tag.to_bytes(3, 'big'))
    return request[at + 8:at + 8 + int.from_bytes(request[at + 4:at + 8], 'big')]


@contextlib.contextmanager
def two_servers() -> Iterator[Tuple[List[int], List[str], Callable[[], None]]]:
    """Two servers, the identifiers that came in requests of either, and what has one of them die,
    by turns, or both live again."""
    context = ssl.SSLContext(ssl.PROTOCOL_TLS_SERVER)
    context.load_cert_chain(CERTS + '/server.pem', CERTS + '/server.key')
    came: List[str] = []
    wires: List[List[socket.socket]] = [[], []]
    is_dead, turn = [False, False], [0]

    def serve(plain: socket.socket, which: int) -> None:
        with contextlib.suppress(OSError, ValueError), plain:
            wires[which].append(plain)
            wire = context.wrap_socket(plain, server_side=True)
            with wire, wire.makefile('rb') as lines:
                wires[which].append(wire)
                while not is_dead[which]:
                    head = lines.read(8)
                    request = lines.read(int.from_bytes(head[4:], 'big'))
                    if len(head) < 8:
                        return
                    name = _value(request, 0x420094).decode()
                    came.append(name)
                    if is_dead[which]:
                        return
                    what = [identifier(name)]
                    operation = 0x12
                    if name.startswith('s'):
                        what, operation = what + [octets(0x4200C3, b'x')], 0x21
                    wire.sendall(response(operation, *what))

    def accept(listener: socket.socket, which: int) -> None:
        with contextlib.suppress(OSError):
            while True:
                plain, _ = listener.accept()
                if is_dead[which]:
                    plain.close()
                else:
                    threading.Thread(target=serve, args=(plain, which), daemon=True).start()

    def die() -> None:
        turn[0] += 1
        is_dead[:] = [False, False]
        if turn[0] % 2:     # the next time both live again
            return
        which = turn[0] // 2 % 2
        is_dead[which] = True
        for wire in wires[which]:
            with contextlib.suppress(OSError):
                wire.shutdown(socket.SHUT_RDWR)
        wires[which].clear()

    listeners = [socket.create_server(('127.0.0.1', 0), backlog=100) for _ in range(2)]
    for which, listener in enumerate(listeners):
        threading.Thread(target=accept, args=(listener, which), daemon=True).start()
    try:
        yield [listener.getsockname()[1] for listener in listeners], came, die
    finally:
        for listener in listeners:
            with contextlib.suppress(OSError):
                listener.shutdown(socket.SHUT_RDWR)
            listener.close()


if __name__ == '__main__':
    unittest.main()
