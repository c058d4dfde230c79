"""Addresses of one server that are tried side by side."""
import contextlib
import socket
import time
import unittest
from typing import Any, Iterator, List, Optional, Tuple
from unittest import mock

from metsuwan import ConnectError
from metsuwan.race import NEXT_ADDRESS, Race, in_turns

from .servers import PORTS, client_of


def address_of(port: int) -> Any:
    return (socket.AF_INET, socket.SOCK_STREAM, 6, '', ('127.0.0.1', port))


def seconds_of(seconds: float) -> Any:
    end = time.monotonic() + seconds

    def left() -> Optional[float]:
        if time.monotonic() >= end:
            raise TimeoutError('late')
        return end - time.monotonic()

    return left


@contextlib.contextmanager
def found(*fakes: str) -> Iterator[None]:
    """The host has the addresses of these fakes."""
    with mock.patch('metsuwan.wire.Wire._addresses',
                    return_value=[address_of(PORTS[fake]) for fake in fakes]):
        yield


class Addresses(unittest.TestCase):
    def test_a_dead_address_costs_a_quarter_of_a_second(self) -> None:
        begun = time.monotonic()
        with found('unaccepting', 'unaccepting', 'unaccepting', 'good'):
            with client_of('good', timeout=60) as kmip:
                took = time.monotonic() - begun
                kmip.query()
        self.assertGreaterEqual(took, 3 * NEXT_ADDRESS)
        self.assertLess(took, 12)       # where each has a part of the time it is 45

    def test_after_one_that_fails_the_next_begins_at_once(self) -> None:
        race = Race([address_of(PORTS[it]) for it in ('nobody', 'good', 'nobody')])
        with contextlib.closing(race), race.next(seconds_of(60), None) as plain:
            self.assertEqual((plain.getpeername()[1], race.left), (PORTS['good'], 1))
            race.has_failed(OSError('TLS'))
            # More is known of the one that was reached.
            with self.assertRaisesRegex(OSError, '^TLS$'):
                race.next(seconds_of(60), None)

    def test_one_that_never_shakes_hands_leaves_time_for_the_next(self) -> None:
        begun = time.monotonic()
        with found('unanswered', 'good'), client_of('good', timeout=8) as kmip:
            kmip.query()
        self.assertLess(time.monotonic() - begun, 8)
        for bad in ('no_tls', 'other/server', 'wrong_host'):
            with self.subTest(bad), found(bad, 'good'), client_of('good') as kmip:
                kmip.query()

    def test_all_that_failed_is_told(self) -> None:
        rows: List[Tuple[List[str], str]] = [
            (['nobody', 'nobody'], '^.Errno 111. Connection refused$'),
            (['nobody', 'other/server'], 'issuer'),
            (['wrong_host', 'other/server'], 'mismatch.*, .*issuer'),
            ([], '^the host has no address$'),
            (['refuses_early', 'good'], '^the server refused the certificate')]
        for fakes, wanted in rows:
            with self.subTest(fakes), found(*fakes), self.assertRaisesRegex(ConnectError, wanted):
                client_of('good')
        with found('unaccepting', 'unaccepting'):
            with self.assertRaisesRegex(ConnectError, '^no answer within 1 seconds$'):
                client_of('good', timeout=1)

    def test_families_take_turns(self) -> None:
        four, six = socket.AF_INET, socket.AF_INET6
        all_of: List[Any] = [(four, 1), (four, 2), (four, 3), (six, 4), (six, 5)]
        self.assertEqual([it[1] for it in in_turns(all_of)], [1, 4, 2, 5, 3])
        self.assertEqual(len(in_turns([(four, 1)] * 40)), 16)
        self.assertEqual(in_turns([]), [])


if __name__ == '__main__':
    unittest.main()
