"""What a terminal is shown, and what is said of words and settings that are none."""
import subprocess
import sys
import unittest
from typing import Any, List

import metsuwan
from metsuwan import Client, GrammarError, KmipError, ServerError

from .messages import enumeration, text
from .servers import CERTS, PORTS, answered, client_of

SIGNS = 'caf\u00e9 \x1b[2J \u009b31m \u202egnp.exe \u2028 \n \x7f'
SHOWN = 'caf\u00e9 \\x1b[2J \\x9b31m \\u202egnp.exe \\u2028 \\n \\x7f'


class Texts(unittest.TestCase):
    def test_no_sign_of_a_server_acts_on_a_terminal(self) -> None:
        # A Result Message (0x42007D) after the Result Reason "general failure".
        items = enumeration(0x42007E, 0x100), text(0x42007D, SIGNS)
        with answered(0x12, *items, status=1) as (kmip, _), self.assertRaises(KmipError) as raised:
            kmip.activate('k')
        self.assertEqual(raised.exception.message, SIGNS)
        self.assertIn(SHOWN, str(raised.exception))
        self.assertIn(SIGNS, raised.exception.text)

    def test_nor_does_one_of_a_name(self) -> None:
        path = CERTS + '/none\x1b[2J\u202e.pem'
        with self.assertRaises(KmipError) as raised:
            Client('localhost', PORTS['good'], cert=path, key=path, ca=path)
        self.assertIn(r'none\x1b[2J\u202e.pem', str(raised.exception))
        self.assertTrue(str(ServerError('a b \u00e9')) == 'a b \u00e9')


class Settings(unittest.TestCase):
    def test_credentials_and_ports_of_other_types(self) -> None:
        settings: List[Any] = [
            ({'user': b'u', 'password': 'p'}, 'a user is a text, and bytes was given'),
            ({'user': 'u', 'password': 5}, 'a password is a text, and int was given'),
            ({'port': True}, 'a port is an int or a text, and bool was given'),
            ({'port': 5696.0}, 'a port is an int or a text, and float was given')]
        for setting, wanted in settings:
            with self.subTest(setting), self.assertRaisesRegex(TypeError, '^%s$' % wanted):
                client_of('good', **setting)

    def test_the_name_of_a_file_is_no_key(self) -> None:
        with client_of('good') as kmip:
            for call in (kmip.register_private_key, kmip.register_public_key):
                with self.assertRaisesRegex(GrammarError, 'no PEM: the text itself is wanted'):
                    call('own.key')
                nones: List[Any] = ['', b'own.key', 'two\nlines']
                for none in nones:
                    with self.assertRaisesRegex(GrammarError, 'is no PEM$'):
                        call(none)

    def test_a_log_that_nobody_listens_to_is_not_written(self) -> None:
        program = "import logging, metsuwan; logging.getLogger('metsuwan').warning('written')"
        made = subprocess.run([sys.executable, '-c', program], stderr=subprocess.PIPE, check=True,
                              env={'PYTHONPATH': ':'.join(sys.path)})
        self.assertEqual(made.stderr, b'')

    def test_the_version_has_one_place(self) -> None:
        with open(str(metsuwan.__file__).replace('__init__', 'version'), encoding='ascii') as file:
            self.assertIn("__version__ = '%s'" % metsuwan.__version__, file.read())


if __name__ == '__main__':
    unittest.main()
