"""A fake server that encrypts, makes codes and hashes as KMIP 1.2 says (4.29 to 4.36), by openssl and Python, with two keys
that are published beside what they make.

The numbers are those of the specification: 9.1.3.1 has the tags, 9.1.3.2 the enumerations.
"""
import hashlib
import hmac
import subprocess

from registry import fake
from ttlv import FAILED, enumeration, identifier, octets, operation_of, response, value_of

ENCRYPT, DECRYPT, MAC, MAC_VERIFY, HASH = 0x1F, 0x20, 0x23, 0x24, 0x27     # 9.1.3.2.27
CBC, ECB, NO_PADDING = 1, 2, 1                                              # 9.1.3.2.14 and 15
SHA_256 = 6                                                                 # 9.1.3.2.16
VALID, INVALID = 1, 2                                                       # 9.1.3.2.23
INVALID_FIELD = 7                                                           # 9.1.3.2.29
# NIST SP 800-38A, appendix F, and RFC 4231, 4.2.
AES, SECRET = bytes.fromhex('2B7E151628AED2A6ABF7158809CF4F3C'), b'\x0b' * 20


def number_of(request, tag):
    """The first number with this tag; 0: there is none."""
    return int.from_bytes(value_of(request, tag, 5) or b'', 'big')


def ciphered(way, request, data):
    """The data by AES, with `-e` encrypted and with `-d` decrypted; None: these parameters are others."""
    iv = value_of(request, '42003D', 8) or b''
    modes = {CBC: ['-aes-128-cbc', '-iv', iv.hex()], ECB: ['-aes-128-ecb']}
    mode = modes.get(number_of(request, '420011'))
    if mode is None or number_of(request, '42005F') != NO_PADDING or len(data) % 16 != 0:
        return None
    made = subprocess.run(['openssl', 'enc', way, '-nopad', '-K', AES.hex(), *mode], input=data, stdout=subprocess.PIPE,
                          check=True)
    return made.stdout


def items_for(request, data):
    """The items of an answer after the identifier, or None."""
    operation = operation_of(request)
    if operation in (ENCRYPT, DECRYPT):
        made = ciphered('-e' if operation == ENCRYPT else '-d', request, data)
        return None if made is None else [octets(0x4200C2, made)]
    if number_of(request, '420038') != SHA_256:
        return None
    if operation == HASH:
        return [octets(0x4200C2, hashlib.sha256(data).digest())]
    code = hmac.new(SECRET, data, 'sha256').digest()
    if operation == MAC:
        return [octets(0x4200C6, code)]
    return [enumeration(0x42009B, VALID if value_of(request, '4200C6', 8) == code else INVALID)]


@fake
def ciphers(wire, request):
    """answers encrypt and decrypt by AES-128 in CBC or ECB with no padding, mac and mac-verify by HMAC, and hash, the last
    three by SHA-256; the two keys have any identifier"""
    operation, name = operation_of(request), value_of(request, '420094', 7)
    items = items_for(request, value_of(request, '4200C2', 8) or b'')
    if items is None:
        failure = response(operation, None, status=FAILED, reason=INVALID_FIELD, message='by other parameters')
        return wire.sendall(failure)
    return wire.sendall(response(operation, ([] if name is None else [identifier(name)]) + items))
