"""Keys as DER (X.690): what a key that OpenSSL wrote is for KMIP, and what a key of KMIP is for
OpenSSL."""
from __future__ import annotations

import base64
import binascii
import re
from typing import Any, Iterator, List, Mapping, NamedTuple, Optional, Sequence, Tuple, Union

from . import pem
from .errors import GrammarError, MissingValue
from .items import Item

Text = Union[str, bytes, bytearray, memoryview]
INTEGER, BIT_STRING, OCTET_STRING, OID, SEQUENCE, FIRST = 0x02, 0x03, 0x04, 0x06, 0x30, 0xA0
RSA, EC, DSA = (bytes.fromhex(digits) for digits in (
    '2A864886F70D010101', '2A8648CE3D0201', '2A8648CE380401'))
# KMIP's names of curves, with the object identifiers and the bits of each.
CURVES = {
    'P_192': ('2A8648CE3D030101', 192), 'P_224': ('2B81040021', 224),
    'P_256': ('2A8648CE3D030107', 256), 'P_384': ('2B81040022', 384), 'P_521': ('2B81040023', 521),
    'SECP256K1': ('2B8104000A', 256), 'BRAINPOOLP256R1': ('2B2403030208010107', 256),
    'BRAINPOOLP384R1': ('2B240303020801010B', 384), 'BRAINPOOLP512R1': ('2B240303020801010D', 512),
}
# The kinds of keys, and KMIP's formats of each, by their labels in PEM.
KEYS = {label: known for known, label in pem.LABELS.items() if known[0] != 'Certificate'}


class Key(NamedTuple):
    """A key as KMIP registers it."""

    object_type: str
    format: str
    algorithm: str
    length: int
    der: bytes


def elements(der: bytes) -> Iterator[Tuple[int, bytes]]:
    """The elements of DER one after the other, each with its tag and its contents.

    :raises ValueError: it is no DER
    """
    while der:
        if len(der) < 2:
            raise ValueError('no DER')
        at, length = 2, der[1]
        if length >= 0x80:
            at, length = 2 + length - 0x80, int.from_bytes(der[2:2 + length - 0x80], 'big')
        if at > 6 or at + length > len(der):
            raise ValueError('no DER')
        yield der[0], der[at:at + length]
        der = der[at + length:]


def _contents_of(der: bytes, *tags: int) -> List[bytes]:
    """The contents of elements that begin with these tags."""
    found = list(elements(der))
    if [tag for tag, _ in found[:len(tags)]] != list(tags):
        raise ValueError('another structure')
    return [contents for _, contents in found]


def _bits(number: bytes) -> int:
    return int.from_bytes(number, 'big').bit_length()


def _curve_bits(identifier: bytes) -> int:
    for name, bits in CURVES.values():
        if bytes.fromhex(name) == identifier:
            return bits
    raise ValueError('another curve')


def _of_algorithm(algorithm: bytes, key: bytes, is_private: bool) -> Tuple[str, int]:
    """The algorithm and the length of a key in X.509 or PKCS#8."""
    found = list(elements(algorithm))
    if found[0] == (OID, RSA):
        return _of_rsa(_contents_of(key, SEQUENCE)[0], is_private)
    if found[0] == (OID, EC) and len(found) > 1 and found[1][0] == OID:
        return 'ECDSA', _curve_bits(found[1][1])
    if found[0] == (OID, DSA) and len(found) > 1 and found[1][0] == SEQUENCE:
        return 'DSA', _bits(_contents_of(found[1][1], INTEGER)[0])
    raise ValueError('another algorithm')


def _of_rsa(contents: bytes, is_private: bool) -> Tuple[str, int]:
    numbers = _contents_of(contents, INTEGER, INTEGER)
    return 'RSA', _bits(numbers[1 if is_private else 0])


def _of_format(label: str, der: bytes) -> Tuple[str, int]:
    """The algorithm and the length of the key that a block of PEM with this label has."""
    (whole,) = _contents_of(der, SEQUENCE)
    if label == 'PUBLIC KEY':
        algorithm, key = _contents_of(whole, SEQUENCE, BIT_STRING)
        return _of_algorithm(algorithm, key[1:], False)
    if label == 'PRIVATE KEY':
        _, algorithm, key = _contents_of(whole, INTEGER, SEQUENCE, OCTET_STRING)[:3]
        return _of_algorithm(algorithm, key, True)
    if label == 'EC PRIVATE KEY':
        parameters = _contents_of(whole, INTEGER, OCTET_STRING, FIRST)[2]
        return 'ECDSA', _curve_bits(_contents_of(parameters, OID)[0])
    return _of_rsa(whole, label == 'RSA PRIVATE KEY')


def _blocks(text: bytes) -> List[Tuple[str, bytes]]:
    """The blocks of a text of PEM, but for parameters of curves, each with its label."""
    found = re.findall(rb'-----BEGIN ([A-Z0-9 ]+)-----(.*?)-----END \1-----', text, re.S)
    return [(label.decode(), body) for label, body in found if not label.endswith(b'PARAMETERS')]


def key_of_pem(text: Text, object_type: str) -> Key:
    """The private key, or the public one, that a text of PEM holds, and nothing else.

    :raises GrammarError: it is none
    """
    what = 'the private key ' if object_type == 'PrivateKey' else 'the public key '
    if not isinstance(text, (str, bytes, bytearray, memoryview)):
        raise TypeError('a key is a text of PEM, and %s was given' % type(text).__name__)
    blocks = _blocks(text.encode(errors='replace') if isinstance(text, str) else bytes(text))
    if not blocks:
        why = 'is no PEM'
        if isinstance(text, str) and text.strip() and '\n' not in text.strip():
            why += ': the text itself is wanted, and not the name of its file'
        raise GrammarError(what + why)
    if len(blocks) > 1:
        raise GrammarError(what + 'is several blocks of PEM, and one at a time is registered')
    label, body = blocks[0]
    if 'ENCRYPTED' in label or b'ENCRYPTED' in body:
        raise GrammarError(what + 'is encrypted: decrypt it before, as by openssl pkey')
    if label not in KEYS or KEYS[label][0] != object_type:
        raise GrammarError('%sis none: the PEM has a %s' % (what, label))
    try:
        der = base64.b64decode(re.sub(rb'[ \t\r\n\f]', b'', body), validate=True)
        algorithm, length = _of_format(label, der)
    except binascii.Error:
        raise GrammarError(what + 'is not base64 in its PEM') from None
    except (ValueError, LookupError):
        raise GrammarError(what + 'is no DER of its kind, or KMIP 1.2 has no name for its '
                           'algorithm or its curve') from None
    return Key(object_type, KEYS[label][1], algorithm, length, der)


def _element(tag: int, *parts: bytes) -> bytes:
    contents = b''.join(parts)
    length = len(contents)
    if length < 0x80:
        return bytes([tag, length]) + contents
    digits = length.to_bytes((length.bit_length() + 7) // 8, 'big')
    return bytes([tag, 0x80 + len(digits)]) + digits + contents


def _integer(number: bytes) -> bytes:
    digits = number.lstrip(b'\0') or b'\0'
    return _element(INTEGER, b'\0' * (digits[0] >> 7) + digits)


def _curve(material: Item) -> Tuple[bytes, int]:
    """The identifier and the bits of the curve of a transparent key."""
    name = material.name_at('RecommendedCurve')
    if name not in CURVES:
        raise MissingValue('a key on %s has no PEM form' % name)
    return _element(OID, bytes.fromhex(CURVES[name][0])), CURVES[name][1]


# What a private key of RSA has in PKCS#1, in this order.
RSA_PARTS = ('Modulus', 'PublicExponent', 'PrivateExponent', 'P', 'Q', 'PrimeExponentP',
             'PrimeExponentQ', 'CRTCoefficient')


def _transparent(form: str, material: Item) -> Optional[Tuple[str, bytes]]:
    """The label in PEM, and the DER, of a key whose parts are told one by one."""
    if form == 'TransparentRSAPublicKey':
        numbers = [_integer(material.bytes_at(name)) for name in RSA_PARTS[:2]]
        return 'RSA PUBLIC KEY', _element(SEQUENCE, *numbers)
    if form == 'TransparentRSAPrivateKey':
        numbers = [_integer(material.bytes_at(name)) for name in RSA_PARTS]
        return 'RSA PRIVATE KEY', _element(SEQUENCE, _integer(b''), *numbers)
    if re.fullmatch('TransparentEC(DSA|DH)?PublicKey', form):
        curve, _ = _curve(material)
        algorithm = _element(SEQUENCE, _element(OID, EC), curve)
        point = _element(BIT_STRING, b'\0', material.bytes_at('QString'))
        return 'PUBLIC KEY', _element(SEQUENCE, algorithm, point)
    if re.fullmatch('TransparentEC(DSA|DH)?PrivateKey', form):
        curve, bits = _curve(material)
        number = int.from_bytes(material.bytes_at('D'), 'big').to_bytes((bits + 7) // 8, 'big')
        return 'EC PRIVATE KEY', _element(SEQUENCE, _integer(b'\1'),
                                          _element(OCTET_STRING, number), _element(FIRST, curve))
    return None


def _name_at(payload: Item, path: str) -> str:
    """A name without the signs that KMIP's encodings put for others, as PKCS8 for PKCS_8."""
    return payload.name_at(path).replace('_', '')


def pem_of_payload(payload: Item) -> str:
    """The PEM of the object in a response's payload to Get.

    :raises MissingValue: it has no PEM form, as a symmetric key, or one that is wrapped
    """
    kind = payload.name_at('ObjectType')
    if kind == 'Certificate':
        form = _name_at(payload, 'Certificate.CertificateType')
        value = payload.bytes_at('Certificate.CertificateValue')
        found = (pem.label_of(kind, form) or '', value)
    else:
        form = _name_at(payload, kind + '.KeyBlock.KeyFormatType')
        found = _key(kind, form, payload.at(kind + '.KeyBlock.KeyValue.KeyMaterial'))
    if not found[0]:
        raise MissingValue('%s in %s has no PEM form' % (kind, form))
    return pem.text_of(*found)


def pem_of_parts(form: str, parts: Mapping[str, Any]) -> str:
    """The PEM of a key of RSA whose parts are told by the names of `get`, in hex.

    :raises MissingValue: it has not all of them
    """
    tags = {name.replace('_', ''): value for name, value in parts.items() if value is not None}
    items = [Item(name, bytes.fromhex(tags[name.lower()]), 'BigInteger')
             for name in RSA_PARTS if name.lower() in tags]
    found = _transparent(form, Item('KeyMaterial', items))
    if found is None:
        raise MissingValue('%s has no PEM form' % form)
    return pem.text_of(*found)


def _key(kind: str, form: str, material: Item) -> Tuple[str, bytes]:
    if material.get('type', 'Structure') == 'Structure':
        try:
            return _transparent(form, material) or ('', b'')
        except OverflowError:
            raise MissingValue('the number of the key is none of its curve') from None
    label = pem.label_of(kind, form)
    return (label, bytes.fromhex(material['value'])) if label else ('', b'')


def block_of(key_format: str, material: bytes, *known: Item) -> Item:
    """A key block with these bytes."""
    return Item('KeyBlock', [Item('KeyFormatType', key_format, 'Enumeration'),
                             Item('KeyValue', [Item('KeyMaterial', material)]), *known])


def registration(object_type: str, attributes: Sequence[Item], parts: Sequence[Item]) -> List[Item]:
    """The items of a request to register an object of these parts."""
    return [Item('ObjectType', object_type, 'Enumeration'),
            Item('TemplateAttribute', list(attributes)), Item(object_type, list(parts))]
