"""Keys and certificates as texts (RFC 7468)."""
from __future__ import annotations

import base64
import binascii
import re
import ssl
from typing import Optional, Union

from .errors import GrammarError

# What objects are called in PEM (RFC 7468, and OpenSSL's own for PKCS#1 and SEC 1).
LABELS = {
    ('PublicKey', 'PKCS1'): 'RSA PUBLIC KEY',
    ('PublicKey', 'X509'): 'PUBLIC KEY',
    ('PrivateKey', 'PKCS1'): 'RSA PRIVATE KEY',
    ('PrivateKey', 'PKCS8'): 'PRIVATE KEY',
    ('PrivateKey', 'ECPrivateKey'): 'EC PRIVATE KEY',
    ('Certificate', 'X509'): 'CERTIFICATE',
}
BEGIN, END = b'-----BEGIN CERTIFICATE-----', b'-----END CERTIFICATE-----'


def label_of(object_type: str, format_name: str) -> Optional[str]:
    """What an object of this type and format is called in PEM."""
    return LABELS.get((object_type, format_name))


def text_of(label: str, der: bytes) -> str:
    """The text of these bytes under a label."""
    text = base64.b64encode(der).decode()
    lines = [text[at:at + 64] for at in range(0, len(text), 64)]
    return '\n'.join(['-----BEGIN %s-----' % label, *lines, '-----END %s-----' % label, ''])


def is_pem(material: bytes) -> bool:
    """Whether bytes begin as a text of PEM does."""
    return material.lstrip().startswith(b'-----BEGIN ')


def _is_whole(der: bytes) -> bool:
    """Whether bytes are a sequence of DER (X.690, 8.1) and nothing after it."""
    if len(der) < 2 or der[0] != 0x30:
        return False
    if der[1] < 0x80:
        return len(der) == 2 + der[1]
    count = der[1] - 0x80
    return 1 <= count <= 4 and len(der) == 2 + count + int.from_bytes(der[2:2 + count], 'big')


def _der_in(text: bytes) -> bytes:
    """The bytes of the one certificate in a text, with whatever else stands around it."""
    _, *parts = text.split(BEGIN)
    if not parts:
        torn = 'is not one whole structure of DER'
        raise _no(torn if text[:1] == b'\x30' else 'is neither DER nor PEM')
    if len(parts) > 1:
        raise _no('is several in one PEM, and one at a time is registered')
    digits, end, _ = parts[0].partition(END)
    if not end:
        raise _no('has no end in its PEM')
    try:
        der = base64.b64decode(re.sub(rb'[ \t\r\n\f]', b'', digits), validate=True)
    except binascii.Error:
        raise _no('is not base64 in its PEM') from None
    if not _is_whole(der):
        raise _no('is not one whole structure of DER in its PEM')
    return der


def _no(why: str) -> GrammarError:
    return GrammarError('the certificate ' + why)


def _checked(der: bytes) -> bytes:
    """The same bytes, where OpenSSL reads an X.509 certificate in them: so no private key is
    registered as a certificate, which servers show to everybody."""
    context = ssl.SSLContext(ssl.PROTOCOL_TLS_CLIENT)
    try:
        context.load_verify_locations(cadata=der)
    except ssl.SSLError:
        raise _no('is none of X.509') from None
    return der


def certificate_der(certificate: Union[str, bytes, bytearray, memoryview]) -> bytes:
    """The DER of an X.509 certificate, which is given as DER or as the one in a PEM.

    :raises GrammarError: it is neither, or no certificate
    """
    if isinstance(certificate, str):
        return _checked(_der_in(certificate.encode(errors='replace')))
    if not isinstance(certificate, (bytes, bytearray, memoryview)):
        raise TypeError('a certificate is bytes or a text, and %s was given'
                        % type(certificate).__name__)
    given = bytes(certificate)
    return _checked(given if _is_whole(given) else _der_in(given))
