"""A fake server with keys on the curve P-256: what KMIP 1.2 says that a server does with them, and real signatures, by openssl.

The numbers are those of the specification: 9.1.3.1 has the tags, 9.1.3.2 the enumerations, and section 4 what a request and
its answer are made of.
"""
import itertools
import pathlib
import subprocess
import sys

from registry import (ACTIVATE, CREATE_KEY_PAIR, DESTROY, GET, GET_ATTRIBUTES, LOCATE, REGISTER, REVOKE, SIGN, SIGNATURE_VERIFY,
                      fake)
from ttlv import (FAILED, enumeration, identifier, integer, items_in, octets, operation_of, response, structure, text, value_of)

CERTIFICATE, PUBLIC_KEY, PRIVATE_KEY = 1, 3, 4                          # 9.1.3.2.12
X509_CERTIFICATE = 1                                                    # 9.1.3.2.6
TAGS = {CERTIFICATE: 0x420013, PUBLIC_KEY: 0x42006D, PRIVATE_KEY: 0x420064}
ECDSA, ECDSA_WITH_SHA256, SHA256, P256, X509 = 6, 0x0E, 6, 7, 5         # 9.1.3.2.13, 7, 16, 5 and 3
PRE_ACTIVE, ACTIVE, DEACTIVATED, COMPROMISED = 1, 2, 3, 4               # 9.1.3.2.18
KEY_COMPROMISE = 2                                                      # 9.1.3.2.19
OF_PUBLIC_KEY, OF_PRIVATE_KEY = 0x102, 0x103                            # 9.1.3.2.20
VALID, INVALID = 1, 2                                                   # 9.1.3.2.23
NOT_FOUND, INVALID_FIELD, ILLEGAL, DENIED = 1, 7, 11, 12                # 9.1.3.2.29
SIGNS, VERIFIES = 1, 2                                                  # 9.1.3.3.1
KEPT, NUMBERS = {}, itertools.count(1)


class Refused(Exception):
    """Why an operation fails: a reason, and the server's message."""


class Kept:
    """An object: its type, name and uses, and a file with the key as PEM, or the certificate as DER."""

    def __init__(self, kind, name, usage, body):
        self.kind, self.name, self.usage, self.file = kind, name, usage, file_of(body)
        self.state, self.link = PRE_ACTIVE, None


def file_of(body):
    made = pathlib.Path(sys.argv[1], 'curves', str(next(NUMBERS)))
    made.parent.mkdir(exist_ok=True)
    made.write_bytes(body)
    return made


def openssl(*words, given=b''):
    return subprocess.run(['openssl', *words], input=given, stdout=subprocess.PIPE, stderr=subprocess.DEVNULL, check=False)


def number(value):
    return None if value is None else int.from_bytes(value, 'big')


def attributes_in(contents):
    """The attributes of these contents: the bytes of each value, by the name."""
    made = {}
    for tag, body in items_in(contents or b''):
        if tag == 0x420008:
            parts = dict(items_in(body))
            made[parts[0x42000A].decode()] = parts[0x42000B]
    return made


def name_in(attributes):
    return value_of(attributes.get('Name', b''), '420055', 7)


def usage_in(attributes):
    return number(attributes.get('Cryptographic Usage Mask')) or 0


def keep(kind, attributes, body):
    made = 'curve-%d' % next(NUMBERS)
    KEPT[made] = Kept(kind, name_in(attributes), usage_in(attributes), body)
    return made


def create_pair(payload):
    shared, private, public = (attributes_in(value_of(payload, tag, 1)) for tag in ('42001F', '420065', '42006E'))
    if number(shared.get('Cryptographic Algorithm')) != ECDSA:
        raise Refused(INVALID_FIELD, 'the algorithm is not ECDSA')
    if number(value_of(shared.get('Cryptographic Domain Parameters', b''), '420075', 5)) != P256:
        raise Refused(INVALID_FIELD, 'the curve is not P-256')
    key = openssl('genpkey', '-algorithm', 'EC', '-pkeyopt', 'ec_paramgen_curve:P-256').stdout
    one, two = keep(PRIVATE_KEY, private, key), keep(PUBLIC_KEY, public, openssl('pkey', '-pubout', given=key).stdout)
    KEPT[one].link, KEPT[two].link = two, one
    return [text(0x420066, one), text(0x42006F, two)]


def register(payload):
    if number(value_of(payload, '420057', 5)) != CERTIFICATE:
        raise Refused(INVALID_FIELD, 'certificates alone are registered here')
    given = attributes_in(value_of(payload, '420091', 1))
    return [identifier(keep(CERTIFICATE, given, value_of(payload, '42001E', 8)))]


def locate(payload):
    wanted = attributes_in(payload)
    name, kind, state = name_in(wanted), number(wanted.get('Object Type')), number(wanted.get('State'))
    return [identifier(key) for key, kept in list(KEPT.items())
            if name in (None, kept.name) and kind in (None, kept.kind) and state in (None, kept.state)]


def get(kept, _):
    if kept.kind == PRIVATE_KEY:
        raise Refused(DENIED, 'a private key stays here')
    if kept.kind == CERTIFICATE:
        body = [enumeration(0x42001D, X509_CERTIFICATE), octets(0x42001E, kept.file.read_bytes())]
    else:
        der = openssl('pkey', '-pubin', '-in', kept.file, '-outform', 'DER').stdout
        body = [structure(0x420040, enumeration(0x420042, X509), structure(0x420045, octets(0x420043, der)),
                          enumeration(0x420028, ECDSA), integer(0x42002A, 256))]
    return [enumeration(0x420057, kept.kind), structure(TAGS[kept.kind], *body)]


def get_attributes(kept, _):
    have = [('Object Type', enumeration(0x42000B, kept.kind)), ('State', enumeration(0x42000B, kept.state))]
    if kept.kind != CERTIFICATE:
        link = OF_PUBLIC_KEY if kept.kind == PRIVATE_KEY else OF_PRIVATE_KEY
        have += [('Cryptographic Algorithm', enumeration(0x42000B, ECDSA)), ('Cryptographic Length', integer(0x42000B, 256)),
                 ('Cryptographic Domain Parameters', structure(0x42000B, enumeration(0x420075, P256))),
                 ('Link', structure(0x42000B, enumeration(0x42004B, link), text(0x42004C, kept.link)))]
    return [structure(0x420008, text(0x42000A, name), value) for name, value in have]


def look_at(kept, payload, usage):
    """Refuses a key that is not active or is for other uses, and parameters that are no ECDSA with SHA-256."""
    how = dict(items_in(value_of(payload, '42002B', 1) or b''))
    if kept.state != ACTIVE or not kept.usage & usage:
        raise Refused(DENIED, 'the key is not active, or not for this use')
    asked = [number(how.get(tag)) for tag in (0x4200AE, 0x420028, 0x420038)]
    if asked not in ([ECDSA_WITH_SHA256, None, None], [None, ECDSA, SHA256]):
        raise Refused(INVALID_FIELD, 'what is asked for is neither ECDSA with SHA-256 nor ECDSA and SHA-256')


def sign(kept, payload):
    look_at(kept, payload, SIGNS)
    made = openssl('dgst', '-sha256', '-sign', kept.file, given=value_of(payload, '4200C2', 8))
    return [octets(0x4200C3, made.stdout)]


def verify(kept, payload):
    look_at(kept, payload, VERIFIES)
    signature = file_of(value_of(payload, '4200C3', 8))
    done = openssl('dgst', '-sha256', '-verify', kept.file, '-signature', signature, given=value_of(payload, '4200C2', 8))
    return [enumeration(0x42009B, VALID if done.returncode == 0 else INVALID)]


def activate(kept, _):
    if kept.state != PRE_ACTIVE:
        raise Refused(ILLEGAL, 'it is not in the Pre-Active state')
    kept.state = ACTIVE
    return []


def revoke(kept, payload):
    compromised = number(value_of(payload, '420082', 5)) == KEY_COMPROMISE
    kept.state = COMPROMISED if compromised else DEACTIVATED
    return []


OF_NONE = {CREATE_KEY_PAIR: create_pair, REGISTER: register, LOCATE: locate}
OF_ONE = {GET: get, GET_ATTRIBUTES: get_attributes, SIGN: sign, SIGNATURE_VERIFY: verify, ACTIVATE: activate, REVOKE: revoke}


def destroy(asked):
    if KEPT[asked].state == ACTIVE:
        raise Refused(DENIED, 'an active object is revoked first')
    del KEPT[asked]
    return [identifier(asked)]


def answer(operation, payload):
    """What the payload of the answer has."""
    if operation in OF_NONE:
        return OF_NONE[operation](payload)
    asked = (value_of(payload, '420094', 7) or b'').decode()
    if asked not in KEPT:
        raise Refused(NOT_FOUND, 'there is no such object')
    if operation == DESTROY:
        return destroy(asked)
    made = OF_ONE[operation](KEPT[asked], payload)
    # (Get has it after the type of the object: 4.11)
    return [*made[:1], identifier(asked), *made[1:]] if operation == GET else [identifier(asked), *made]


@fake
def curves(wire, request):
    """keeps pairs of keys on P-256, which sign, and certificates"""
    operation = operation_of(request)
    try:
        wire.sendall(response(operation, answer(operation, value_of(request, '420079', 1) or b'')))
    except Refused as why:
        wire.sendall(response(operation, None, status=FAILED, reason=why.args[0], message=why.args[1]))
