#!/usr/bin/python3
"""A KMIP server of one pair, of RSA or of a curve, which does what PyKMIP does not: the private key, `priv`, has a Link to the public key,
`pub`, and the salts of PSS are as long as the digest. The command openssl signs for it.

    signer.py CERTS KEY [WRONG]

KEY is a private key in a PEM file. One of P-256 has the algorithm ECDSA, one of another curve EC. WRONG is one of
    signature    the last byte of each signature is another
    rsa          the private key is said to be one of RSA, whatever it is
    private      the Link is to the private key itself
    lies         whatever object is got is the private key, though Object Type says otherwise
    hangs        to Sign it says nothing
It writes `ready PORT` when it listens, at the port SIGNER_PORT where that is set, and then the name of the operation of each
request.
"""
import functools
import os
import socket
import ssl
import subprocess
import sys
import threading
import time

TOP = os.path.realpath(os.path.join(os.path.dirname(__file__), *4 * ['..']))
sys.path.insert(0, os.path.join(TOP, 'tools', 'live'))
from ttlv import (FAILED, enumeration, id_of, identified, identifier, integer, message_of, octets,  # noqa: E402
                  operation_of, response, structure, text, value_of)

certs, key = sys.argv[1], sys.argv[2]
wrong = sys.argv[3] if len(sys.argv) > 3 else ''
LOCATE, GET, GET_ATTRIBUTES, SIGN = 8, 10, 11, 33
NAMES = {LOCATE: 'Locate', GET: 'Get', GET_ATTRIBUTES: 'GetAttributes', SIGN: 'Sign'}
PUBLIC, PRIVATE = 3, 4
HASHES = {5: 'sha224', 6: 'sha256', 7: 'sha384', 8: 'sha512'}
PSS = 10
BY_ECDSA = {13: 'sha224', 14: 'sha256', 15: 'sha384', 16: 'sha512'}
RSA, ECDSA, EC = 4, 6, 0x1A
ITEM_NOT_FOUND = 1


def openssl(*words, data=b''):
    stock = dict(os.environ, OPENSSL_CONF='/dev/null')
    return subprocess.run(['openssl', *words], input=data, stdout=subprocess.PIPE, check=True, env=stock).stdout


@functools.lru_cache(1)
def algorithm():
    shown = openssl('pkey', '-in', key, '-noout', '-text')
    return RSA if b'ASN1 OID' not in shown else ECDSA if b'prime256v1' in shown else EC


def key_block(format_type, der):
    return structure(0x420040, enumeration(0x420042, format_type), structure(0x420045, octets(0x420043, der)),
                     enumeration(0x420028, algorithm()), integer(0x42002A, 2048 if algorithm() == RSA else 256))


@functools.lru_cache(10)
def got(name):
    if name == 'priv' or wrong == 'lies':
        der = openssl('rsa', '-in', key, '-traditional', '-outform', 'DER')
        return [enumeration(0x420057, PRIVATE), identifier(name), structure(0x420064, key_block(3, der))]
    der = openssl('pkey', '-in', key, '-pubout', '-outform', 'DER')
    return [enumeration(0x420057, PUBLIC), identifier(name), structure(0x42006D, key_block(5, der))]


def attribute(name, value):
    return structure(0x420008, text(0x42000A, name), value)


def attributes(name):
    made = [identifier(name),
            attribute('Object Type', enumeration(0x42000B, PRIVATE if name == 'priv' else PUBLIC)),
            attribute('Cryptographic Algorithm', enumeration(0x42000B, RSA if wrong == 'rsa' else algorithm()))]
    if name == 'priv':
        made.append(attribute('Link', structure(0x42000B, enumeration(0x42004B, 0x103), text(0x42004C, 'other'))))
        linked = 'priv' if wrong == 'private' else 'pub'
        made.append(attribute('Link', structure(0x42000B, enumeration(0x42004B, 0x102), text(0x42004C, linked))))
    return made


# (a process takes as long as all else together)
@functools.lru_cache(1000)
def signature_of(name, *padding, data):
    return openssl('dgst', '-' + name, '-sign', key, *padding, data=data)


def signed(request):
    if algorithm() != RSA:
        name = BY_ECDSA[int.from_bytes(value_of(request, '4200AE', 5), 'big')]
        made = openssl('dgst', '-' + name, '-sign', key, data=value_of(request, '4200C2', 8))
        return made[:-1] + bytes([made[-1] ^ (wrong == 'signature')])
    pss = value_of(request, '42005F', 5) == PSS.to_bytes(4, 'big')
    name = HASHES[int.from_bytes(value_of(request, '420038', 5), 'big')]
    padding = ['-sigopt', 'rsa_padding_mode:pss', '-sigopt', 'rsa_pss_saltlen:digest'] if pss else []
    made = signature_of(name, *padding, data=value_of(request, '4200C2', 8))
    return made[:-1] + bytes([made[-1] ^ (wrong == 'signature')])


def answer(operation, request):
    name = (value_of(request, '420094', 7) or b'').decode()
    print(NAMES.get(operation, operation), name, flush=True)
    if operation == SIGN and wrong == 'hangs':
        time.sleep(1 << 30)
    if operation == LOCATE:
        return response(operation, [])
    if name not in ('priv', 'pub'):
        return response(operation, None, status=FAILED, reason=ITEM_NOT_FOUND, message='no such object')
    if operation == GET:
        return response(operation, got(name))
    if operation == GET_ATTRIBUTES:
        return response(operation, attributes(name))
    return response(operation, [identifier(name), octets(0x4200C3, signed(request))])


def serve(context, plain):
    try:
        with context.wrap_socket(plain, server_side=True) as wire:
            while request := message_of(wire):
                wire.sendall(identified(answer(operation_of(request), request), id_of(request)))
    except OSError:
        pass


def main():
    context = ssl.SSLContext(ssl.PROTOCOL_TLS_SERVER)
    context.load_cert_chain(certs + '/server.pem', certs + '/server.key')
    context.load_verify_locations(certs + '/ca.pem')
    context.verify_mode = ssl.CERT_REQUIRED
    with socket.create_server(('127.0.0.1', int(os.environ.get('SIGNER_PORT', '0'))), backlog=300) as listener:
        print('ready', listener.getsockname()[1], flush=True)
        while True:
            plain, _ = listener.accept()
            threading.Thread(target=serve, args=(context, plain), daemon=True).start()


main()
