"""Calls of any operation, by its name and a payload in JSON."""
import unittest
from typing import Any, Dict, List, Tuple

from metsuwan import GrammarError, Item, SerializeError
from metsuwan.client import Payload

from .servers import client_of

ITEM: Dict[str, Any] = {'tag': 'UniqueIdentifier', 'type': 'TextString', 'value': 'ké'}


def payload(*items: Dict[str, Any], tag: str = 'RequestPayload') -> Dict[str, Any]:
    value: List[Dict[str, Any]] = list(items)
    return {'tag': tag, 'value': value}


class Operations(unittest.TestCase):
    def test_an_answer_is_the_responses_payload(self) -> None:
        with client_of('good') as kmip:
            answer = kmip.operation('Encrypt', payload(ITEM))
            self.assertEqual(answer, payload(ITEM, tag='ResponsePayload'))
            answer = kmip.operation('Query', '{"value":[],"tag":"RequestPayload"}', version='1.0')
            self.assertEqual(answer, payload(
                {'tag': 'Operation', 'type': 'Enumeration', 'value': 'Create'},
                {'tag': 'VendorIdentification', 'type': 'TextString', 'value': 'fake'},
                tag='ResponsePayload'))

    def test_a_payload_may_be_its_items(self) -> None:
        with client_of('good') as kmip:
            answer = kmip.operation('Encrypt', [Item('UniqueIdentifier', 'k\u00e9')])
            self.assertEqual(answer, payload(ITEM, tag='ResponsePayload'))
            self.assertEqual(answer.text_at('UniqueIdentifier'), 'k\u00e9')
            self.assertEqual(kmip.operation('Encrypt', [ITEM]), answer)
            self.assertEqual(kmip.operation('Encrypt', ()).text_at('UniqueIdentifier'), '1')

    def test_what_is_no_call_is_an_error_and_nothing_is_sent(self) -> None:
        with client_of('good') as kmip:
            rows: List[Tuple[str, str, Payload]] = [
                ('encrypt', '1.2', payload()), ('Encrypt', '1.3', payload()),
                ('Encrypt', '1.2', payload(tag='ResponsePayload')), ('Encrypt', '1.2', ''),
                ('Encrypt', '1.2', payload({'tag': 'Dat'})), ('\ud800', '1.2', payload()),
                ('Encrypt', '1.2', [Item('Count', 1 << 31)]), ('Encrypt', '1.2', [{}])]
            for name, version, given in rows:
                with self.subTest(name=name, version=version), self.assertRaises(GrammarError):
                    kmip.operation(name, given, version=version)
            reasons: List[Tuple[str, str, Payload, str]] = [
                ('encrypt', '1.2', payload(), 'no operation of this name'),
                ('Encrypt', '1.3', payload(), 'version is none of'),
                ('Encrypt', '1.2', payload({'tag': 'Dat'}),
                 r'the payload: line 1, column \d+, value\[0\]\.tag: expected the name of a tag, '
                 'or 0x and six hex digits, found another string$'),
                ('Get', '1.2', [Item('UniqueIdentifier', '')],
                 'an identifier or an .* in it is empty$'),
                ('Get', '1.2', [Item('0x420094', '')], 'an identifier or an .* in it is empty$')]
            for name, version, given, wrong in reasons:
                with self.assertRaisesRegex(GrammarError, wrong):
                    kmip.operation(name, given, version=version)
            with self.assertRaises(SerializeError):
                kmip.operation('Encrypt', payload(
                    {'tag': 'Modulus', 'type': 'BigInteger', 'value': '0x01'}))
            self.assertEqual(kmip.query()['vendor_identification'], 'fake')
