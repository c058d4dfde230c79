"""Certificates are registered as DER, whatever they are given as."""
import ssl
import unittest
from typing import Any, Dict, List, Tuple, Union
from unittest import mock

from metsuwan import Client, GrammarError, Item
from metsuwan.calls import USES, call_of, uses_of
from metsuwan.library import Library
from metsuwan.pem import certificate_der, text_of

from .servers import CERTS, client_of


def object_of(name: str) -> bytes:
    """One of the objects that certs.sh makes, in DER."""
    with open('%s/objects/%s.der' % (CERTS, name), 'rb') as file:
        return file.read()


DER = object_of('Certificate.X509')


class Given(unittest.TestCase):
    def test_der_and_pem(self) -> None:
        pem = text_of('CERTIFICATE', DER)
        around = '0: \u00e9\r\n' + pem.replace('\n', '\r\n') + 'after'
        givens: List[Union[str, bytes, bytearray, memoryview]] = [
            DER, bytearray(DER), memoryview(DER), pem, pem.encode(), around, around.encode()]
        for given in givens:
            with self.subTest(given):
                self.assertEqual(certificate_der(given), DER)

    def test_a_real_one(self) -> None:
        with open(CERTS + '/client.pem', encoding='ascii') as file:
            pem = file.read()
        self.assertEqual(certificate_der(pem), ssl.PEM_cert_to_DER_cert(pem))

    def test_what_is_whole_and_none(self) -> None:
        # Servers show a certificate to everybody.
        ders = [b'\x30\x00', b'\x30\x01\xab', DER[:-1] + bytes([DER[-1] ^ 1]) + b'\0']
        ders += map(object_of, ('PrivateKey.PKCS1', 'PrivateKey.PKCS8', 'PrivateKey.ECPrivateKey',
                                'PublicKey.PKCS1', 'PublicKey.X509'))
        with client_of('good') as kmip:
            for der in ders:
                givens: List[Union[str, bytes]] = [der, text_of('CERTIFICATE', der)]
                for given in givens:
                    with self.subTest(given), self.assertRaises(GrammarError) as raised:
                        kmip.register_certificate(given)
                    self.assertIn('DER' if der[-1] == 0 and len(der) > 2 else 'none of X.509',
                                  str(raised.exception))

    def test_what_is_none(self) -> None:
        one = text_of('CERTIFICATE', b'\x30\x00')
        torn = 'is not one whole structure of DER'
        rows: List[Tuple[Union[str, bytes], str]] = [
            (b'', 'is neither DER nor PEM'), ('x', 'is neither DER nor PEM'),
            (b'\xff', 'is neither DER nor PEM'),
            (text_of('PRIVATE KEY', b'\x30\x00'), 'is neither DER nor PEM'),
            (one * 2, 'is several in one PEM, and one at a time is registered'),
            (one[:40], 'has no end in its PEM'),
            (one.replace('MAA', 'MA*'), 'is not base64 in its PEM'),
            (one.replace('MAA=', 'MAA'), 'is not base64 in its PEM'),
        ]
        for der in (b'\x30', b'\x30\x01', b'\x30\x00\x00', b'\x30\x80\x00\x00'):
            rows += [(der, torn), (text_of('CERTIFICATE', der), torn + ' in its PEM')]
        for given, why in rows:
            with self.subTest(given), self.assertRaises(GrammarError) as raised:
                certificate_der(given)
            self.assertEqual(str(raised.exception), 'the certificate ' + why)


class Registered(unittest.TestCase):
    def payload_of(self, **options: Any) -> Item:
        """What Register is asked with."""
        answer = Item('ResponsePayload', [Item('UniqueIdentifier', '7')])
        with client_of('good') as kmip, \
                mock.patch.object(Client, 'operation', return_value=answer) as operation:
            self.assertEqual(kmip.register_certificate(DER, **options), '7')
        (name, items), version = operation.call_args
        self.assertEqual((name, version), ('Register', {'version': '1.0'}))
        return Item('RequestPayload', items)

    def test_the_request(self) -> None:
        kind = {'tag': 'ObjectType', 'type': 'Enumeration', 'value': 'Certificate'}
        certificate = {'tag': 'Certificate', 'value': [
            {'tag': 'CertificateType', 'type': 'Enumeration', 'value': 'X509'},
            {'tag': 'CertificateValue', 'type': 'ByteString', 'value': DER.hex().upper()}]}
        usage = {'tag': 'Attribute', 'value': [
            {'tag': 'AttributeName', 'type': 'TextString', 'value': 'Cryptographic Usage Mask'},
            {'tag': 'AttributeValue', 'type': 'Integer', 'value': 4098}]}
        name = {'tag': 'Attribute', 'value': [
            {'tag': 'AttributeName', 'type': 'TextString', 'value': 'Name'},
            {'tag': 'AttributeValue', 'value': [
                {'tag': 'NameValue', 'type': 'TextString', 'value': 'the "root"'},
                {'tag': 'NameType', 'type': 'Enumeration', 'value': 'UninterpretedTextString'}]}]}
        uses = ['Verify', 'CertificateSign']
        rows: List[Tuple[Dict[str, Any], List[Any]]] = [
            ({}, []), ({'usage': uses}, [usage]), ({'name': 'the "root"'}, [name]),
            ({'usage': ','.join(uses), 'name': 'the "root"'}, [usage, name])]
        for options, attributes in rows:
            with self.subTest(options):
                template = {'tag': 'TemplateAttribute', 'value': attributes}
                self.assertEqual(self.payload_of(**options)['value'],
                                 [kind, template, certificate])

    def test_the_answer_is_an_identifier(self) -> None:
        with client_of('good') as kmip:
            self.assertEqual(kmip.register_certificate(DER, name='root', usage='Verify'), '1')

    def test_what_is_no_certificate_or_no_use(self) -> None:
        with client_of('good') as kmip:
            rows: List[Dict[str, Any]] = [
                {'certificate': b'x'}, {'certificate': DER, 'usage': 'Verify, Sign'},
                {'certificate': DER, 'usage': ''}]
            for wrong in rows:
                with self.subTest(wrong), self.assertRaises(GrammarError):
                    kmip.register_certificate(**wrong)
            self.assertEqual(kmip.query()['vendor_identification'], 'fake')

    def test_values_of_another_type(self) -> None:
        # bytes(2) would be two bytes of zero, and a number as a name an Integer.
        rows: List[Tuple[Any, Any]] = [
            (2, {}), ([0x30, 0], {}), (None, {}), (DER, {'name': 5}),
            (DER, {'name': b'x'}), (DER, {'usage': 5}), (DER, {'usage': {}})]
        with client_of('good') as kmip:
            for certificate, options in rows:
                with self.subTest((certificate, options)), self.assertRaises(TypeError):
                    kmip.register_certificate(certificate, **options)

    def test_uses_have_the_bits_of_the_library(self) -> None:
        self.assertEqual(len(USES), 20)
        for name in USES:
            with self.subTest(name):
                request = Library().request(call_of('create', ['AES', 256, 'n'], {'usage': name}))
                assert isinstance(request, bytes)
                item = bytes.fromhex('42000B0200000004') + uses_of(name).to_bytes(4, 'big')
                self.assertIn(item, request)


if __name__ == '__main__':
    unittest.main()
