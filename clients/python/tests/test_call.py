"""The program that makes one call, whose arguments are texts."""
import json
import os
import unittest
from typing import Any, List
from unittest import mock

import call
from metsuwan import Client, GrammarError

from .servers import CERTS, PORTS


class Calls(unittest.TestCase):
    def answer_of(self, *texts: str, fake: str = 'good') -> str:
        name, *words = texts
        files = ['%s/%s' % (CERTS, file) for file in ('client.pem', 'client.key', 'ca.pem')]
        with mock.patch.dict(os.environ, KMIP_TIMEOUT='60'):
            return call.answer_of(['localhost', str(PORTS[fake]), *files], name, words)

    def test_words_are_as_they_were_typed(self) -> None:
        rows: List[Any] = [
            (['archive', '50% of a=b'], {'unique_identifier': '50% of a=b'}),
            (['encrypt', '-', '00ff', 'mode=CBC', 'iv='], {'unique_identifier': '-'}),
            (['rng', '3'], {'random_bytes': '000102'}),
            (['sign', 'sch\u00fcssel', ''],
             {'unique_identifier': 'sch\u00fcssel',
              'signature_data': 'signature by sch\u00fcssel'.encode().hex().upper()})]
        for texts, wanted in rows:
            with self.subTest(texts):
                self.assertEqual(json.loads(self.answer_of(*texts)), {'answer': wanted})

    def test_for_what_is_none_there_is_no_connection(self) -> None:
        rows = [(['sing', 'k'], 'there is no call sing'), (['pem'], 'not those of get ID'),
                (['pem', 'k', 'usage=Sign'], 'not those of get ID'),
                (['encrypt', 'k', 'xyz'], 'DATA has to be an even number of hex digits'),
                (['get', '\udcff'], 'is not UTF-8'),
                (['register', 'private', b'-----BEGIN '.hex()], 'the key is PEM')]
        for texts, why in rows:
            with self.subTest(texts), self.assertRaisesRegex(GrammarError, why):
                self.answer_of(*texts, fake='nobody')

    def test_pem_has_the_options_of_get(self) -> None:
        with mock.patch.object(Client, 'get') as get:
            get.return_value.pem.return_value = 'PEM'
            self.assertEqual(self.answer_of('pem', 'k', 'format=PKCS8'), 'PEM')
            get.assert_called_once_with('k', format='PKCS8')
            with mock.patch.dict(os.environ, KMIP_PEM='1'):
                self.assertEqual(self.answer_of('get', 'k=1', 'format=Raw', 'wrap=a=b'), 'PEM')
            get.assert_called_with('k=1', format='Raw', wrap='a=b')


if __name__ == '__main__':
    unittest.main()
