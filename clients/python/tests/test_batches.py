"""Several calls in one message."""
import re
import unittest
from typing import Callable, Dict, List
from unittest import mock

from metsuwan import (Client, ConnectionLost, GrammarError, Item, ItemNotFound, NotDone,
                      OtherObject, ServerError, Undone)
from metsuwan.wire import Wire

from .servers import client_of, new_user


class Batches(unittest.TestCase):
    def test_each_answer_is_that_of_the_single_call(self) -> None:
        with client_of('batches') as kmip:
            batch = kmip.batch().call('query').call('sign', 'k', b'x')
            batch.operation('Archive', [Item('UniqueIdentifier', 'a')]).call('activate', 'k 1')
            query, signed, archived, activated, key = batch.call('get', 'PublicKey.EC').send()
            with client_of('good') as good:
                self.assertEqual(query, good.call('query'))
                self.assertEqual(signed, good.call('sign', 'k', b'x'))
                self.assertEqual(archived,
                                 good.operation('Archive', [Item('UniqueIdentifier', 'a')]))
                self.assertEqual(activated, good.call('activate', 'k 1'))
            with client_of('transparent') as keys:
                self.assertEqual(key, keys.call('get', 'PublicKey.EC'))
            self.assertEqual(kmip.batch().call('query').send(), [query])

    def test_an_error_stands_in_the_place_of_an_answer(self) -> None:
        with client_of('batches') as kmip:
            answers = kmip.batch().call('activate', 'failing').call('activate', 'k').send()
            self.assertIsInstance(answers[0], ItemNotFound)
            self.assertEqual(answers[1], {})
            for how, last in (('Stop', NotDone), ('Undo', dict)):
                batch = kmip.batch(on_error=how).call('activate', 'a').call('activate', 'failing')
                first, second, third = batch.call('activate', 'k').send()
                self.assertEqual(first, {})
                self.assertIsInstance(second, ItemNotFound)
                self.assertIsInstance(third, last)
            self.assertEqual(kmip.call('activate', 'k'), {})

    def test_what_the_server_has_undone(self) -> None:
        with client_of('batches') as kmip:
            batch = kmip.batch(on_error='Undo').call('activate', 'undone')
            undone, failed = batch.call('activate', 'failing').send()
            assert isinstance(undone, Undone) and isinstance(failed, ItemNotFound)
            self.assertEqual(undone.kind, 'Undone')
            self.assertEqual(undone.line()['text'], 'the server has undone this call of the batch')

    def test_a_message_that_is_no_response_loses_the_connection(self) -> None:
        count = b'\x42\0\x0d\x02\0\0\0\x04\0\0\0'

        def twice(response: bytes) -> bytes:
            header = response[8:16 + int.from_bytes(response[12:16], 'big')]
            length = int.from_bytes(response[4:8], 'big') + len(header)
            return response[:4] + length.to_bytes(4, 'big') + header + response[8:]

        changes: Dict[str, Callable[[bytes], bytes]] = {
            'Batch Count': lambda it: it.replace(count + b'\2', count + b'\7'),
            'a request': lambda it: b'\x42\0\x78' + it[3:],
            'a header': lambda it: it.replace(b'\x42\0\x7a\x01', b'\x42\0\x77\x01'),
            'two headers': twice,
            'a Byte String': lambda it: it.replace(b'\x42\0\x0f\x01', b'\x42\0\x0f\x08'),
        }
        real = Client._response
        for name, change in changes.items():
            def respond(kmip: Client, wire: Wire, request: bytes) -> bytes:
                response = real(kmip, wire, request)
                self.assertNotEqual(change(response), response)
                return change(response)

            with self.subTest(name), mock.patch.object(Client, '_response', respond):
                kmip = client_of('batches')
                with self.assertRaises(OtherObject):
                    kmip.batch().call('activate', 'a').call('activate', 'b').send()
                self.assertFalse(kmip.is_open)

    def test_after_an_idle_end_it_is_sent_again(self) -> None:
        # Nothing of it was sent, so it may change something. (This fake answers no batch.)
        with client_of('end_after', reconnect=True) as kmip:
            kmip.query()
            with self.assertLogs('metsuwan', 'WARNING') as log, self.assertRaises(OtherObject):
                kmip.batch().call('activate', 'k').send()
            self.assertIn('nothing was sent: the call is made again', log.output[0])

    def test_where_it_was_sent_it_is_made_again_if_it_changes_nothing(self) -> None:
        for names, is_again in ((('query', 'query'), True), (('query', 'activate'), False)):
            user = new_user()
            with client_of('first_lost', user=user, password='', reconnect=True) as kmip:
                batch = kmip.batch()
                for name in names:
                    batch.call(name, *(['k'] if name == 'activate' else []))
                with self.subTest(names), self.assertRaises(ConnectionLost) as raised:
                    batch.send()    # (its second answer is that of one call)
                self.assertEqual(isinstance(raised.exception, OtherObject), is_again)
                came = kmip.query()['vendor_identification']
                self.assertEqual(came, '3' if is_again else '2')

    def test_a_message_that_is_refused_is_the_error_of_each(self) -> None:
        with client_of('no_batches') as kmip:
            for answer in kmip.batch().call('query').call('activate', 'k').send():
                assert isinstance(answer, ServerError)
                self.assertEqual(answer.message, 'no batches')

    def test_what_is_no_batch(self) -> None:
        with client_of('good') as kmip:
            wrongs: List[Callable[[], object]] = [
                lambda: kmip.batch(on_error='stop'), lambda: kmip.batch().send(),
                lambda: kmip.batch().call('activat', 'k'),
                lambda: kmip.batch().operation('Archive', '{}')]
            for wrong in wrongs:
                with self.assertRaises(GrammarError):
                    wrong()
            self.assertEqual(kmip.query()['vendor_identification'], 'fake')

    def test_an_answer_to_an_earlier_batch_loses_the_connection(self) -> None:
        # Also where the same batch is sent again.
        for same in (False, True):
            with client_of('earlier_batch') as kmip, self.subTest(same):
                first = kmip.batch().call('activate', 'a').call('activate', 'k')
                second = kmip.batch().call('activate', 'a').call('activate', 'k')
                self.assertEqual(first.send(), [{}, {}])
                with self.assertRaises(OtherObject) as raised:
                    (first if same else second).send()
                self.assertEqual(raised.exception.text,
                                 'an item of the response is of no call of the batch')
                self.assertFalse(kmip.is_open)

    def test_the_ids_are_numbers_that_follow_each_other(self) -> None:
        lines: List[str] = []
        last = mock.patch('os.urandom', side_effect=lambda count: b'\xff' * count)
        with client_of('batches', record=lines.append) as kmip, last:
            batch = kmip.batch().call('activate', 'a').call('query').call('activate', 'k')
            first, _, third = batch.send()
            self.assertEqual((first, third), ({}, {}))
        ids = re.findall('4200930800000008([0-9A-F]{16})', lines[0].split(' ')[1])
        self.assertEqual(ids, ['F' * 16, '0' * 16, '0' * 15 + '1'])

    def test_an_item_that_was_not_asked_for_loses_the_connection(self) -> None:
        with client_of('batches') as kmip:
            with self.assertRaises(OtherObject):
                kmip.batch().call('activate', 'unknown').call('query').send()
            with self.assertRaises(ConnectionLost):
                kmip.query()
        # So does a success that does not say of which call it is, also where there is one call.
        rest: List[List[str]] = [[], ['query']]
        for others in rest:
            with client_of('batches') as kmip, self.subTest(others):
                batch = kmip.batch().call('activate', 'unnamed')
                for other in others:
                    batch.call(other)
                with self.assertRaises(OtherObject):
                    batch.send()
                with self.assertRaises(ConnectionLost):
                    kmip.query()
        # So do two answers to a call, and none where no call before it has failed.
        for name in ('twice', 'left out'):
            for how in ('Continue', 'Stop', 'Undo'):
                with client_of('batches') as kmip, self.subTest((name, how)):
                    with self.assertRaises(OtherObject):
                        kmip.batch(on_error=how).call('activate', name).call('query').send()
                    self.assertFalse(kmip.is_open)
        # One answer with no identifier in the batch, or two of them, are of no call.
        for fake in ('rubbish', 'batch_two', 'half', 'other_operation'):
            with client_of(fake) as kmip, self.subTest(fake):
                try:
                    answers = kmip.batch().call('query').call('activate', 'k').send()
                except ConnectionLost:
                    continue
                for answer in answers:
                    self.assertIsInstance(answer, ConnectionLost)
