"""Servers that are not known, and servers that refuse the client's certificate."""
import os
import socket
import ssl
import subprocess
import sys
import tempfile
import unittest
from typing import Any
from unittest import mock

import metsuwan
from metsuwan import Client, ConnectError
from metsuwan.wire import Wire

from .servers import CERTS, PORTS, client_of


def context_by(ciphers: str = 'ALL:@SECLEVEL=0') -> ssl.SSLContext:
    """A context of the caller's that takes all that OpenSSL has."""
    context = ssl.create_default_context(cafile=CERTS + '/ca.pem')
    context.load_cert_chain(CERTS + '/client.pem', CERTS + '/client.key')
    context.minimum_version = ssl.TLSVersion.MINIMUM_SUPPORTED
    context.set_ciphers(ciphers)
    return context


# A query of this port by the files of this folder, in a process of its own.
QUERY = '''import sys, metsuwan
certs = sys.argv[2]
try:
    metsuwan.Client('localhost', int(sys.argv[1]), cert=certs + '/client.pem',
                    key=certs + '/client.key', ca=certs + '/ca.pem').query()
    print('taken')
except metsuwan.ConnectError as error:
    print(error)
'''


class Servers(unittest.TestCase):
    def refused(self, fake: str, text: str, context: ssl.SSLContext) -> None:
        # (nothing that is sent in a handshake is a request)
        with mock.patch.object(Wire, 'send', side_effect=AssertionError('something is sent')):
            with self.subTest(fake), self.assertRaisesRegex(ConnectError, text):
                Client('localhost', PORTS[fake], context=context, timeout=60).query()

    def test_whatever_a_context_allows(self) -> None:
        self.refused('no_certificate', '^TLS: the server has no certificate$',
                     context_by('ALL:aNULL:@SECLEVEL=0'))
        self.refused('no_encryption', '^TLS: .*NULL.* encrypts nothing, or weakly$',
                     context_by('ALL:eNULL:@SECLEVEL=0'))
        self.refused('old_tls', r'^TLS: TLSv1\.1 is older than TLS 1\.2$', context_by())
        with Client('localhost', PORTS['good'], context=context_by(), timeout=60) as kmip:
            kmip.query()

    def test_whatever_openssls_configuration_allows(self) -> None:
        lines = ('openssl_conf=a\n[a]\nssl_conf=b\n[b]\nsystem_default=c\n[c]\n'
                 'CipherString=ALL:aNULL:eNULL:@SECLEVEL=0\nMinProtocol=TLSv1\n')
        with tempfile.NamedTemporaryFile('w', suffix='.cnf') as file:
            file.write(lines)
            file.flush()
            for fake in ('no_certificate', 'no_encryption', 'old_tls'):
                words = [sys.executable, '-c', QUERY, str(PORTS[fake]), CERTS]
                made = subprocess.run(words, stdout=subprocess.PIPE, text=True, check=True,
                                      env={**os.environ, 'OPENSSL_CONF': file.name,
                                           'PYTHONPATH': os.pathsep.join(sys.path)})
                self.assertNotEqual(made.stdout, 'taken\n', fake)

    def test_an_earlier_session(self) -> None:
        with mock.patch.object(ssl.SSLObject, 'session_reused', True):
            self.refused('good', '^TLS: the session is an earlier one$', context_by())

    def test_a_context_that_does_not_verify(self) -> None:
        def given(**settings: Any) -> ssl.SSLContext:
            context = context_by()
            for name, value in settings.items():
                setattr(context, name, value)
            return context

        unverified = given(check_hostname=False, verify_mode=ssl.CERT_NONE)
        rows = ((unverified, 'verify_mode'), (given(check_hostname=False), 'check_hostname'),
                (given(check_hostname=False, verify_mode=ssl.CERT_OPTIONAL), 'verify_mode'),
                (given(post_handshake_auth=True), 'post_handshake_auth'))
        for context, text in rows:
            with self.subTest(text), self.assertRaisesRegex(ValueError, text):
                Client('localhost', PORTS['good'], context=context)
        with self.assertRaisesRegex(TypeError, 'a context is an ssl.SSLContext'):
            Client('localhost', PORTS['good'], context='none')  # type: ignore[arg-type]

    def test_a_context_that_is_changed_later(self) -> None:
        context = context_by()
        with Client('localhost', PORTS['end_after'], context=context, reconnect=True) as kmip:
            kmip.query()
            context.check_hostname = False
            context.verify_mode = ssl.CERT_NONE
            with self.assertRaisesRegex(ConnectError, 'verify_mode is not CERT_REQUIRED'):
                kmip.query()


class Refused(unittest.TestCase):
    TEXT = '^the server refused the certificate: unknown CA$'

    def test_at_the_look_before_a_call(self) -> None:
        kmip = client_of('refuses')
        assert kmip._wire is not None
        kmip._wire._plain.settimeout(60)
        kmip._wire._plain.recv(1, socket.MSG_PEEK)     # the alert has come
        with self.assertRaisesRegex(ConnectError, self.TEXT) as raised:
            kmip.activate('k')
        self.assertFalse(raised.exception.was_sent or kmip.is_open)

    def test_at_the_read(self) -> None:
        with mock.patch.object(Wire, 'check_idle'):
            with self.assertRaisesRegex(ConnectError, self.TEXT) as raised:
                client_of('refuses').activate('k')
        self.assertFalse(raised.exception.was_sent)

    def test_where_a_write_fails(self) -> None:
        class Broken(socket.socket):
            def send(self, *_: Any) -> int:
                raise BrokenPipeError(32, 'Broken pipe')

        kmip = client_of('refuses')
        assert kmip._wire is not None
        plain = kmip._wire._plain
        plain.settimeout(60)
        plain.recv(1, socket.MSG_PEEK)
        kmip._wire._plain = Broken(plain.family, plain.type, plain.proto, plain.detach())
        with mock.patch.object(Wire, 'check_idle'):
            with self.assertRaisesRegex(ConnectError, self.TEXT) as raised:
                kmip.activate('k')
        self.assertFalse(raised.exception.was_sent)

    def test_a_request_of_any_size(self) -> None:
        for size in (1, 1 << 22):
            with self.subTest(size), self.assertRaisesRegex(ConnectError, self.TEXT):
                client_of('refuses').sign('k', bytes(size))

    def test_within_the_handshake(self) -> None:
        with self.assertRaisesRegex(ConnectError, self.TEXT):
            client_of('refuses_early')

    def test_the_call_is_not_made_again(self) -> None:
        with client_of('refuses', reconnect=True) as kmip:
            with self.assertLogs('metsuwan', 'DEBUG') as log:
                with self.assertRaisesRegex(ConnectError, self.TEXT):
                    kmip.query()
            self.assertNotIn('again', str(log.output))

    def test_what_was_sent(self) -> None:
        with self.assertRaises(metsuwan.ResponseReadError) as read:
            client_of('end').query()
        self.assertTrue(read.exception.was_sent)
        kmip = client_of('end_after')
        kmip.query()
        with self.assertRaises(metsuwan.RequestWriteError) as write:
            kmip.query()
        self.assertFalse(write.exception.was_sent)


if __name__ == '__main__':
    unittest.main()
