"""The methods that stand on calls of the table: what they ask is what their arguments say."""
import unittest
from typing import Any, Callable, Dict, List, Tuple
from unittest import mock

from metsuwan import Client, GrammarError, Item, MissingValue, OtherObject

from .messages import enumeration, identifier, octets, request, structure
from .servers import ID, answered, client_of

K, X, Y = identifier('k'), octets(0x4200C2, b'x'), octets(0x4200C2, b'y')
IV = octets(0x42003D, b'iv')
ANOTHER = 'answer for another object'
HOW: Dict[str, Any] = {'mode': 'CBC', 'padding': 'PKCS5', 'algorithm': 'AES'}
HOW_ITEMS = structure(0x42002B, enumeration(0x420011, 1), enumeration(0x42005F, 3),
                      enumeration(0x420028, 3))


class Typed(unittest.TestCase):
    def test_what_is_asked_and_what_is_answered(self) -> None:
        hmac = structure(0x42002B, enumeration(0x420028, 9))
        sha = structure(0x42002B, enumeration(0x420038, 6))
        pss = structure(0x42002B, enumeration(0x42005F, 10), enumeration(0x420038, 7),
                        enumeration(0x420028, 4))
        both = structure(0x42002B, enumeration(0x4200AE, 5))
        signature, mac = octets(0x4200C3, b's'), octets(0x4200C6, b'm')
        valid, invalid = enumeration(0x42009B, 1), enumeration(0x42009B, 2)
        rows: List[Tuple[Callable[[Client], Any], int, List[bytes], List[bytes], Any]] = [
            (lambda kmip: kmip.encrypt('k', b'x', iv=b'iv', **HOW), 0x1F, [K, HOW_ITEMS, X, IV],
             [K, Y, IV], (b'y', b'iv')),
            (lambda kmip: kmip.encrypt('k', bytearray(b'x')), 0x1F, [K, X], [K, Y], (b'y', None)),
            (lambda kmip: kmip.decrypt('k', b'x', iv=memoryview(b'iv'), **HOW), 0x20,
             [K, HOW_ITEMS, X, IV], [K, Y], b'y'),
            (lambda kmip: kmip.mac('k', b'x', algorithm='HMAC_SHA256'), 0x23, [K, hmac, X],
             [K, mac], b'm'),
            (lambda kmip: kmip.mac('k', b'x', hash='SHA256'), 0x23, [K, sha, X], [K, mac], b'm'),
            (lambda kmip: kmip.mac_verify('k', b'x', b'm'), 0x24, [K, X, mac], [K, valid], True),
            (lambda kmip: kmip.mac_verify('k', b'x', b'm', algorithm='HMAC_SHA256'), 0x24,
             [K, hmac, X, mac], [K, invalid], False),
            (lambda kmip: kmip.verify('k', b'x', b's', hash='SHA384', padding='PSS',
                                      algorithm='RSA'), 0x22, [K, pss, X, signature], [K, valid],
             True),
            (lambda kmip: kmip.verify(
                'k', b'x', b's', signature_algorithm='SHA_256WithRSAEncryptionPKCS_1V1_5'), 0x22,
             [K, both, X, signature], [K, invalid], False),
            (lambda kmip: kmip.rekey('k'), 4, [K], [identifier('new')], 'new'),
        ]
        for call, operation, payload, answer, wanted in rows:
            with answered(operation, *answer) as (kmip, asked), self.subTest(operation):
                self.assertEqual(call(kmip), wanted)
                self.assertEqual(asked, [request(2, operation, *payload, item_id=ID)])

    def test_derive_key(self) -> None:
        answer = Item('ResponsePayload', [Item('UniqueIdentifier', 'k')])
        with client_of('good') as kmip:
            with mock.patch.object(Client, 'operation', return_value=answer) as operation:
                made = kmip.derive_key('base', 'PBKDF2', algorithm='AES', length=128, salt=b's',
                                       iterations=9, hash='SHA256')
            self.assertEqual(made, 'k')
            items = {item['tag']: item['value'] for item in operation.call_args[0][1]}
            self.assertEqual([item['tag'] for item in items['DerivationParameters']],
                             ['CryptographicParameters', 'Salt', 'IterationCount'])
            self.assertEqual((items['ObjectType'], items['UniqueIdentifier']),
                             ('SymmetricKey', 'base'))
            derived = kmip.derive_key('k', 'HMAC', algorithm='AES', length=128, data=b'x',
                                      hash='SHA256', usage='Encrypt', name='n')
            self.assertEqual(derived, 'k')

    def test_an_answer_about_another_object_loses_the_connection(self) -> None:
        calls: List[Tuple[int, List[bytes], Callable[[Client], object], str]] = [
            (0x1F, [K, Y], lambda kmip: kmip.encrypt('other', b'x'), ANOTHER),
            (0x20, [K, Y], lambda kmip: kmip.decrypt('other', b'x'), ANOTHER),
            (0x23, [K, Y], lambda kmip: kmip.mac('other', b'x'), ANOTHER),
            (0x24, [K, Y], lambda kmip: kmip.mac_verify('other', b'x', b'm'), ANOTHER),
            (0x22, [K, Y], lambda kmip: kmip.verify('other', b'x', b's'), ANOTHER),
            (0x1F, [Y], lambda kmip: kmip.encrypt('k', b'x'), ANOTHER),
            (0x1F, [], lambda kmip: kmip.encrypt('k', b'x'), 'answer with an empty payload'),
            (4, [], lambda kmip: kmip.rekey('k'), 'answer with an empty payload'),
            (4, [identifier('')], lambda kmip: kmip.rekey('k'), 'answer without an identifier'),
            (0x12, [K], lambda kmip: kmip.operation('Activate', [Item('UniqueIdentifier', 'o')]),
             ANOTHER)]
        for operation, payload, call, why in calls:
            with answered(operation, *payload) as (kmip, _), self.subTest((operation, payload)):
                with self.assertRaisesRegex(OtherObject, why):
                    call(kmip)
                self.assertFalse(kmip.is_open)

    def test_a_value_that_is_missing_is_an_error(self) -> None:
        calls: List[Tuple[int, List[bytes], Callable[[Client], object]]] = [
            (0x1F, [K], lambda kmip: kmip.encrypt('k', b'x')),
            (0x1F, [K, Y, Y], lambda kmip: kmip.encrypt('k', b'x')),
            (0x1F, [K, Y, IV, IV], lambda kmip: kmip.encrypt('k', b'x')),
            (0x20, [K], lambda kmip: kmip.decrypt('k', b'x')),
            (0x23, [K], lambda kmip: kmip.mac('k', b'x')),
            (0x24, [K], lambda kmip: kmip.mac_verify('k', b'x', b'm')),
            (0x22, [K, enumeration(0x42009B, 3)], lambda kmip: kmip.verify('k', b'x', b's')),
            (4, [X], lambda kmip: kmip.rekey('k'))]
        for operation, answer, call in calls:
            with answered(operation, *answer) as (kmip, _), self.subTest((operation, answer)):
                with self.assertRaises(MissingValue):
                    call(kmip)
                self.assertTrue(kmip.is_open)

    def test_what_is_none(self) -> None:
        text: Any = 'x'
        number: Any = 4
        with client_of('good') as kmip:
            wrongs: List[Callable[[], object]] = [
                lambda: kmip.encrypt('k', text), lambda: kmip.encrypt('k', number),
                lambda: kmip.mac(number, b'x'), lambda: kmip.encrypt('k', b'x', mode=number),
                lambda: kmip.decrypt('k', b'x', iv=text), lambda: kmip.verify('k', b'x', text),
                lambda: kmip.mac_verify('k', b'x', text), lambda: kmip.rekey(number)]
            for wrong in wrongs:
                with self.assertRaises(TypeError):
                    wrong()
            wrongs = [lambda: kmip.encrypt('k', b'x', mode='ABC'), lambda: kmip.rekey(''),
                      lambda: kmip.decrypt('', b'x'), lambda: kmip.mac('k', b'x', hash='sha256')]
            for wrong in wrongs:
                with self.assertRaises(GrammarError):
                    wrong()
            self.assertEqual(kmip.rekey('k'), 'k')


if __name__ == '__main__':
    unittest.main()
