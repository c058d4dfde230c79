"""Fake servers that answer with objects: those of certs.sh, those that were registered, and keys by their parts."""
import sys

from der import contents_in
from registry import GET, GET_ATTRIBUTES, QUERY, REGISTER, fake
from ttlv import FAILED, enumeration, identifier, integer, item, octets, operation_of, response, structure, text, value_of

# KMIP's numbers of what `objects` has: of types of objects, with the tags of these, and of formats.
OBJECT_TYPES = {'Certificate': (1, 0x420013), 'SymmetricKey': (2, 0x42008F),
                'PublicKey': (3, 0x42006D), 'PrivateKey': (4, 0x420064)}
FORMATS = {'Raw': 1, 'PKCS1': 3, 'PKCS8': 4, 'X509': 5, 'ECPrivateKey': 6}


def object_of(kind, form, value):
    """An object of this type and format; `value` is its key value as an item, or a certificate."""
    number, tag = OBJECT_TYPES[kind]
    if kind == 'Certificate':
        body = [enumeration(0x42001D, 1), octets(0x42001E, value)]
    else:
        body = [structure(0x420040, enumeration(0x420042, FORMATS[form]), value)]
    return [enumeration(0x420057, number), structure(tag, *body)]


@fake
def objects(wire, request):
    """answers get with an object of certs.sh, as `PublicKey.X509`, or with a key that is `wrapped`"""
    asked = (value_of(request, '420094', 7) or b'').decode()
    if asked == 'wrapped':
        kind, form, value = 'PrivateKey', 'PKCS8', octets(0x420045, b'wrapped')
    else:
        kind, form = asked.split('.')
        with open('%s/objects/%s.der' % (sys.argv[1], asked), 'rb') as file:
            value = file.read()
        if kind != 'Certificate':
            value = structure(0x420045, octets(0x420043, value))
    number, body = object_of(kind, form, value)
    wire.sendall(response(GET, [number, identifier(asked), body]))


KEPT = {}               # by the identifier: the type of an object that was registered, and the object


@fake
def keeper(wire, request):
    """answers register, with a new identifier, and get, with the object that was registered by it"""
    operation = operation_of(request)
    if operation == REGISTER:
        kind = value_of(request, '420057', 5)
        for tag in ('420013', '42006D', '420064', '420085'):
            body = value_of(request, tag, 1)
            if body is not None:
                KEPT['kept%d' % len(KEPT)] = kind, structure(int(tag, 16), body)
                return wire.sendall(response(REGISTER, [identifier('kept%d' % (len(KEPT) - 1))]))
    asked = (value_of(request, '420094', 7) or b'').decode()
    if operation != GET or asked not in KEPT:
        return wire.sendall(response(operation, None, status=FAILED, reason=1, message='there is none'))
    kind, body = KEPT[asked]
    return wire.sendall(response(GET, [item(0x420057, 5, kind), identifier(asked), body]))


# KMIP's tags of the numbers of a private key of RSA, in the order of PKCS#1.
RSA_TAGS = (0x420052, 0x42006C, 0x420063, 0x42005E, 0x420071, 0x420060, 0x420061, 0x420027)
# The base point of P-256 (SEC 2, 2.4.2): the public key whose private one is 1.
BASE = bytes.fromhex('046B17D1F2E12C4247F8BCE6E563A440F277037D812DEB33A0F4A13945D898C296'
                     '4FE342E2FE1A7F9B8EE7EB4A7C0F9E162BCE33576B315ECECBB6406837BF51F5')


def parts_of(name):
    """The format and the key material of a key whose parts are told one by one, and its algorithm."""
    if name == 'PublicKey.EC':
        return 0x0F, [enumeration(0x420075, 7), octets(0x420072, BASE)], 6
    if name == 'PrivateKey.EC':
        return 0x0E, [enumeration(0x420075, 7), item(0x42002E, 4, bytes(7) + b'\1')], 6
    with open('%s/objects/%s.PKCS1.der' % (sys.argv[1], name.split('.', maxsplit=1)[0]), 'rb') as file:
        numbers = contents_in(file.read())
    if name == 'PublicKey.RSA':
        tags, form = RSA_TAGS[:2], 0x0B
    else:
        tags, form, numbers = RSA_TAGS, 0x0A, numbers[1:]
    padded = [bytes(-len(number) % 8) + number for number in numbers]
    return form, [item(tag, 4, number) for tag, number in zip(tags, padded)], 4


# Of what is no key with a value: the number of its type, which for a certificate request is of KMIP 2.0, and the object.
OTHERS = {'request': (10, octets(0x420018, b'request')),
          'no value': (2, structure(0x42008F, structure(0x420040, enumeration(0x420042, 1), enumeration(0x420028, 3))))}


def told_key(asked):
    """The number of the type of a key of `transparent`, and the key."""
    if asked == 'HMAC':
        kind, (form, parts, algorithm) = 'SymmetricKey', (1, [], 8)
        material = octets(0x420043, b'secret')
    else:
        name = asked if '.' in asked else 'PublicKey.EC'
        kind, (form, parts, algorithm) = name.split('.', maxsplit=1)[0], parts_of(name)
        material = structure(0x420043, *parts)
    number, tag = OBJECT_TYPES[kind]
    block = structure(0x420040, enumeration(0x420042, form), structure(0x420045, material),
                      enumeration(0x420028, algorithm), integer(0x42002A, 256))
    return number, structure(tag, block)


@fake
def transparent(wire, request):
    """answers get with the parts of a key: `PublicKey.RSA`, `PrivateKey.RSA`, `PublicKey.EC`, `PrivateKey.EC`; `HMAC` is
    an HMAC key, `request` a certificate request, `no value` a key without its value, `elsewhere` a key on a curve about which
    it says another identifier, as long, `nameless` one about which it says none; attributes with an algorithm that is in no
    table, of `elsewhere` with an attribute that is, of `moved` with another identifier; query's vendor is how many requests
    came on the connection"""
    wire.came = getattr(wire, 'came', 0) + 1
    operation, asked = operation_of(request), (value_of(request, '420094', 7) or b'').decode()
    if operation == QUERY:
        return wire.sendall(response(QUERY, [text(0x42009D, '%d' % wire.came)]))
    if operation == GET_ATTRIBUTES:
        name, value = ('x-of ours', 9) if asked == 'elsewhere' else ('Cryptographic Algorithm', 6)
        attribute = structure(0x420008, text(0x42000A, name), enumeration(0x42000B, value))
        return wire.sendall(response(GET_ATTRIBUTES, [identifier('other' if asked == 'moved' else asked), attribute]))
    number, body = OTHERS.get(asked) or told_key(asked)
    about = {'elsewhere': [identifier('otherwise')], 'nameless': []}.get(asked, [identifier(asked)])
    return wire.sendall(response(GET, [enumeration(0x420057, number), *about, body]))
