"""The Unique Batch Item IDs of operations and batches, by which the answer is known."""
import itertools
import unittest
from typing import Callable, List
from unittest import mock

from metsuwan import (Client, ConnectionLost, Item, OtherObject, RequestWriteError, ServerError)
from metsuwan.library import Library, Operation

from .servers import client_of


def encrypt(kmip: Client, identifier: str = 'k') -> Item:
    return kmip.operation('Encrypt', [Item('UniqueIdentifier', identifier)])


class Ids(unittest.TestCase):
    def test_each_operation_has_an_id_of_its_own(self) -> None:
        with client_of('ids') as kmip:
            # The server answers with the ID as data.
            ids = {encrypt(kmip).bytes_at('Data'), encrypt(kmip).bytes_at('Data'),
                   kmip.encrypt('k', b'x').data}
            self.assertEqual((len(ids), {len(name) for name in ids}), (3, {8}))

    def test_the_id_stands_behind_the_operation(self) -> None:
        # KMIP 1.0, 7.1 and 7.2: Query with no functions
        front = bytes.fromhex('4200770100000038' '4200690100000020'
                              '42006A02000000040000000100000000'
                              '42006B02000000040000000000000000'
                              '42000D02000000040000000100000000')
        for name, item in ((b'\0\xff\1', '420093080000000300FF010000000000'), (b'', '')):
            body = bytes.fromhex('42005C05000000040000001800000000' + item + '4200790100000000')
            message = front + bytes.fromhex('42000F01') + len(body).to_bytes(4, 'big') + body
            request = bytes.fromhex('42007801') + len(message).to_bytes(4, 'big') + message
            payload = b'{"tag":"RequestPayload","value":[]}'
            made = Library().request(Operation(b'Query', b'1.0', payload, name))
            self.assertEqual(made, request)

    def test_without_random_bytes_nothing_is_sent(self) -> None:
        calls: List[Callable[[Client], object]] = [
            encrypt, lambda kmip: kmip.batch().call('query').send()]
        errors = NotImplementedError('there are none'), OSError(38, 'there are none')
        for call, error in itertools.product(calls, errors):
            with client_of('ids') as kmip, mock.patch('os.urandom', side_effect=error):
                with self.assertRaises(RequestWriteError) as raised:
                    call(kmip)
                self.assertEqual(str(raised.exception), 'no random bytes for the Unique Batch Item '
                                 'ID: %s; nothing was sent' % error)
                self.assertIs(raised.exception.__cause__, error)
                self.assertFalse(kmip.is_open)

    def test_an_answer_that_has_another_id_or_none_is_lost(self) -> None:
        for fake in ('no_id', 'other_id'):
            for identifier in ('k', 'failing'):
                with self.subTest((fake, identifier)), client_of(fake) as kmip:
                    # A call of words has no ID, and asks for none.
                    kmip.activate('k')
                    with self.assertRaises(OtherObject) as raised:
                        encrypt(kmip, identifier)
                    self.assertEqual(raised.exception.text, 'Response does not have the '
                                     "request's Unique Batch Item ID")
                    self.assertFalse(kmip.is_open)
                    with self.assertRaises(ConnectionLost):
                        kmip.activate('k')

    def test_a_failure_of_the_message_is_that_of_the_call(self) -> None:
        with client_of('unread') as kmip:
            for _ in range(2):
                with self.assertRaises(ServerError) as raised:
                    encrypt(kmip)
                self.assertEqual((raised.exception.reason, raised.exception.message),
                                 (4, 'not read'))


if __name__ == '__main__':
    unittest.main()
