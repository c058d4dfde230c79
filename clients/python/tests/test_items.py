"""Items of messages, as values of Python and as JSON."""
import copy
import datetime
import json
import unittest
from typing import Any, Dict, List, Tuple

from metsuwan import GrammarError, Item, MissingValue
from metsuwan.library import Library, Operation

UTC = datetime.timezone.utc


def attribute(name: str, value: Any) -> Item:
    return Item('Attribute', [Item('AttributeName', name), Item('AttributeValue', value)])


class Written(unittest.TestCase):
    def test_a_type_follows_from_the_value_or_is_given(self) -> None:
        rows: List[Tuple[Item, Dict[str, Any]]] = [
            (Item('Data', b'\0\xff'), {'type': 'ByteString', 'value': '00FF'}),
            (Item('Data', bytearray()), {'type': 'ByteString', 'value': ''}),
            (Item('Data', 'k'), {'type': 'TextString', 'value': 'k'}),
            (Item('Data', -1), {'type': 'Integer', 'value': -1}),
            (Item('Data', True), {'type': 'Boolean', 'value': True}),
            (Item('Data', 1, 'Interval'), {'type': 'Interval', 'value': 1}),
            (Item('Data', 'CBC', 'Enumeration'), {'type': 'Enumeration', 'value': 'CBC'}),
            (Item('Data', -1, 'LongInteger'),
             {'type': 'LongInteger', 'value': '0xFFFFFFFFFFFFFFFF'}),
            (Item('Data', bytes(8), 'BigInteger'),
             {'type': 'BigInteger', 'value': '0x0000000000000000'}),
            (Item('Data', datetime.datetime(2008, 3, 14, 11, 56, 40, tzinfo=UTC)),
             {'type': 'DateTime', 'value': '0x0000000047DA67F8'}),
            (Item('Data', -1, 'DateTime'), {'type': 'DateTime', 'value': '0xFFFFFFFFFFFFFFFF'}),
            (Item('Data', [Item('D', 'd')]),
             {'value': [{'tag': 'D', 'type': 'TextString', 'value': 'd'}]}),
            (Item('Data', ()), {'value': []}),
        ]
        for item, wanted in rows:
            with self.subTest(repr(item)):
                self.assertEqual(item, {'tag': 'Data', **wanted})

    def test_each_is_an_item_for_the_library(self) -> None:
        values: List[Any] = [b'\0', 'k', -1, True, datetime.datetime.now(UTC), [Item('D', '')]]
        items = [Item('0x540001', value) for value in values]
        kinds: List[Tuple[Any, str]] = [
            (1, 'Interval'), (1, 'LongInteger'), (1 << 53, 'LongInteger'), (-1, 'LongInteger'),
            (bytes(8), 'BigInteger'), ('0x00000001', 'Enumeration'), (1, 'Enumeration'),
            ('CBC', 'Enumeration'), (0, 'DateTime')]
        items += [Item('BlockCipherMode', value, kind) for value, kind in kinds]
        for item in items:
            payload = json.dumps(Item('RequestPayload', [item])).encode()
            with self.subTest(payload):
                request = Library().request(Operation(b'Encrypt', b'1.2', payload))
                self.assertIsInstance(request, bytes)

    def test_values_of_no_type(self) -> None:
        values: List[Any] = [1.5, None, object()]
        for value in values:
            with self.subTest(value), self.assertRaisesRegex(TypeError, 'no value of the type'):
                Item('Data', value)

    def test_numbers_of_more_than_64_bits(self) -> None:
        for kind in ('LongInteger', 'DateTime'):
            for number in (1 << 63, -1 - (1 << 63), 1 << 64):
                with self.subTest((kind, number)), self.assertRaisesRegex(GrammarError, '64 bits'):
                    Item('Data', number, kind)
            for number in ((1 << 63) - 1, -1 << 63):
                self.assertEqual(Item.of_json(Item('Data', number, kind))['value'],
                                 '0x%016X' % (number % (1 << 64)))

    def test_a_date_without_a_time_zone(self) -> None:
        with self.assertRaises(ValueError):
            Item('ActivationDate', datetime.datetime(2008, 3, 14))


class Read(unittest.TestCase):
    payload = Item('ResponsePayload', [
        Item('UniqueIdentifier', '4'), attribute('State', 'x'), attribute('x-a', b'\0\xff'),
        {'tag': 'TimeStamp', 'type': 'DateTime', 'value': '2008-03-14T11:56:40+00:00'},
        Item('ValidityDate', (1 << 53) + 1, 'LongInteger'), Item('LeaseTime', 3600, 'Interval'),
        {'tag': 'BatchCount', 'type': 'LongInteger', 'value': -4503599627370495},
        Item('Modulus', bytes(8), 'BigInteger'), Item('State', 'Active', 'Enumeration')])

    def test_items_are_found_by_their_tags(self) -> None:
        self.assertEqual(self.payload.text_at('UniqueIdentifier'), '4')
        self.assertEqual(self.payload.text_at('Attribute.AttributeName'), 'State')
        self.assertEqual(self.payload.text_at('Attribute.1.AttributeName'), 'x-a')
        self.assertEqual(self.payload.at('Attribute.1').bytes_at('AttributeValue'), b'\0\xff')
        self.assertEqual(self.payload.name_at('State'), 'Active')
        self.assertEqual(self.payload.bytes_at('Modulus'), bytes(8))
        numbers = [self.payload.number_at(tag) for tag in
                   ('TimeStamp', 'ValidityDate', 'LeaseTime', 'BatchCount')]
        self.assertEqual(numbers, [0x47DA67F8, (1 << 53) + 1, 3600, -4503599627370495])

    def test_the_number_of_a_mask(self) -> None:
        for names, bits in (('Encrypt|Decrypt|CertificateSign', 0x100C), ('0x80000000', -1 << 31),
                            ('MACGenerate|MACVerify|CRLSign|0x00100000', 0x102180),
                            ('OnLineStorage|ArchivalStorage', 3)):
            with self.subTest(names):
                payload = Item('ResponsePayload', [Item('AttributeValue', names, 'Integer')])
                self.assertEqual(payload.number_at('AttributeValue'), bits)

    def test_what_is_missing_is_an_error(self) -> None:
        for path in ('', 'Name', 'Attribute.2', 'Attribute.State', 'UniqueIdentifier.0.0'):
            with self.subTest(path), self.assertRaises(MissingValue) as raised:
                self.payload.at(path)
            self.assertEqual(str(raised.exception), 'ResponsePayload has no ' + path)
        for read in (self.payload.bytes_at, self.payload.name_at, self.payload.number_at):
            with self.subTest(read.__name__), self.assertRaises(MissingValue):
                read('UniqueIdentifier')
        with self.assertRaises(MissingValue):
            self.payload.text_at('State')

    def test_a_value_that_is_none_of_its_type_is_missing(self) -> None:
        for value, kind in (('Encrypt|Fly', 'Integer'), ('', 'Integer'), ('0xZZ', 'Integer'),
                            ('0xZZ', 'LongInteger'), ('soon', 'DateTime')):
            with self.subTest((value, kind)), self.assertRaises(MissingValue):
                Item('ResponsePayload', [Item('AttributeValue', value, kind)]).number_at(
                    'AttributeValue')
        with self.assertRaises(MissingValue):
            Item('ResponsePayload', [Item('Data', '0', 'ByteString')]).bytes_at('Data')

    def test_an_item_of_json_is_one_of_items(self) -> None:
        item = Item.of_json(json.loads(json.dumps(self.payload)))
        self.assertIsInstance(item.at('Attribute.1.AttributeName'), Item)
        self.assertIsInstance(item['value'][1]['value'][0], Item)
        self.assertEqual(copy.deepcopy(item), item)

    def test_repr_shows_no_value(self) -> None:
        shown = repr(Item('Attribute', [Item('Data', b'Geheim'), Item('D', 'geheim')]))
        self.assertEqual(shown, 'Attribute: [Data: ByteString, D: TextString]')

    def test_nor_that_of_a_dict_within(self) -> None:
        key: Dict[str, Any] = {'tag': 'KeyMaterial', 'type': 'ByteString', 'value': '476568'}
        block: Dict[str, Any] = {'tag': 'KeyBlock', 'value': [key, 'Geheim']}
        odd: Any = {'value': 'Geheim'}
        for item in (Item('SymmetricKey', [block]), Item('SymmetricKey', [Item('K', [block])])):
            shown = repr(item) + str(item) + '%r' % [item]
            self.assertIn('KeyBlock: [KeyMaterial: ByteString, str]', shown)
            self.assertNotIn('476568', shown)
            self.assertNotIn('Geheim', shown)
        self.assertEqual(repr(Item('Data', [odd])), 'Data: [None: Structure]')


if __name__ == '__main__':
    unittest.main()
