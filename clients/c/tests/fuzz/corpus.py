#!/usr/bin/python3
"""Writes calls and responses to them for the fuzzers: corpus.py FOLDER CERTS.

Each pair is NAME.call, the words of a call on a line each, and NAME.response in FOLDER, with the
same call as any operation in NAME.operation: its name, its version and its payload in JSON, on
three lines. The responses are those of the fake servers of tools/live; CERTS is a folder that
certs.sh of tools/live made. LIBMETSUWAN is the library. The request of such an operation is that of
the call, byte for byte.
"""
import json
import pathlib
import sys
from typing import Any, Dict, List, Tuple

TOP = pathlib.Path(__file__).resolve().parents[4]
sys.path[:0] = [str(TOP / 'tools' / 'live')]
import fakes                                    # noqa: E402
import objects                                  # noqa: E402
import trees                                    # noqa: E402
import ttlv                                     # noqa: E402
from library import Library, Operation          # noqa: E402

ONE = b'1'
IDENTIFIED = ttlv.identifier('1')
OPERATIONS = {'activate': 0x12, 'revoke': 0x13, 'destroy': 0x14}
NAMES = {1: 'Create', 2: 'CreateKeyPair', 8: 'Locate', 0x0A: 'Get', 0x0B: 'GetAttributes',
         0x0E: 'ModifyAttribute', 0x12: 'Activate', 0x13: 'Revoke', 0x14: 'Destroy', 0x18: 'Query',
         0x1E: 'DiscoverVersions', 0x1F: 'Encrypt', 0x21: 'Sign', 0x23: 'MAC', 0x25: 'RNGRetrieve',
         0x27: 'Hash'}
Pairs = Dict[str, Tuple[List[str], bytes]]


def attribute(name: str, *value: bytes) -> bytes:
    return ttlv.structure(0x420008, ttlv.text(0x42000A, name), *value)


def attributes() -> List[bytes]:
    """One of each type of value."""
    named = ttlv.structure(0x42000B, ttlv.text(0x420055, 'a "name"\n'),
                           ttlv.enumeration(0x420054, 1))
    return [
        attribute('Name', ttlv.integer(0x420009, 0), named),
        attribute('State', ttlv.enumeration(0x42000B, 1)),
        attribute('Cryptographic Length', ttlv.integer(0x42000B, 256)),
        attribute('Initial Date', ttlv.date(0x42000B, -5)),
        attribute('Object Type', ttlv.enumeration(0x42000B, 2)),
        attribute('x-own', ttlv.text(0x42000B, 'text')),
        attribute('x-bytes', ttlv.octets(0x42000B, b'\0\xff')),
    ]


def answers(certs: str) -> Pairs:
    """Calls, and a good answer to each."""
    response = ttlv.response
    made = {
        'query': (['query'], fakes.GOOD_QUERY),
        'create_rsa': (['create-rsa', '2048', '50% of a=b', '-'], response(2, fakes.KEYS)),
        'create_aes': (['create-aes', '256', ''],
                       response(1, [ttlv.enumeration(0x420057, 2), IDENTIFIED])),
        'rng': (['rng', '4'], response(0x25, [ttlv.octets(0x4200C2, b'\xde\xad\xbe\xef')])),
        'sign': (['sign', '1', '0102'],
                 response(0x21, [IDENTIFIED, ttlv.octets(0x4200C3, b'signature')])),
        'rename': (['rename', '1', 'new'], response(0x0E, [IDENTIFIED, attributes()[0]])),
        'locate': (['locate', 'n=%41'], response(8, [IDENTIFIED, ttlv.identifier('2')])),
        'locate_where': (['locate', 'where', 'name=50% = a', 'state=Active'],
                         response(8, [IDENTIFIED])),
        'attributes': (['attributes', '1'], response(0x0B, [IDENTIFIED, *attributes()])),
        'discover': (['discover'], response(0x1E, [ttlv.structure(
            0x420069, ttlv.integer(0x42006A, 1), ttlv.integer(0x42006B, 2))])),
        'encrypt': (['encrypt', '1', '00FF', 'mode=CBC', 'iv=000102'],
                    response(0x1F, [IDENTIFIED, ttlv.octets(0x4200C2, b'\0data')])),
        'mac': (['mac', '1', '', 'algorithm=HMAC_SHA256'],
                response(0x23, [IDENTIFIED, ttlv.octets(0x4200C6, b'code')])),
        'hash': (['hash', '616263', 'hash=SHA_256'],
                 response(0x27, [ttlv.octets(0x4200C2, b'digest')])),
    }
    for name, number in OPERATIONS.items():
        made[name] = ([name, '1'], response(number, [IDENTIFIED]))
    for path in sorted(pathlib.Path(certs, 'objects').glob('*.der')):
        kind, form = path.stem.split('.')
        kind = {'EC': 'PrivateKey'}.get(kind, kind)  # certs.sh names a key on a curve so
        value = path.read_bytes()
        if kind != 'Certificate':
            value = ttlv.structure(0x420045, ttlv.octets(0x420043, value))
        number, body = objects.object_of(kind, form, value)
        made['get.' + path.stem] = (['get', '1'], response(0x0A, [number, IDENTIFIED, body]))
    return made


def all_pairs(certs: str) -> Pairs:
    """The answers, a failure of each call, the same by `raw` where that has it, and odd ones."""
    library = Library()
    pairs = answers(certs)
    for name, (call, _) in list(pairs.items()):
        request: Any = library.request(call)
        operation = ttlv.operation_of(request)
        failed = ttlv.response(operation, None, status=ttlv.FAILED, reason=1,
                               message='why "not"?\n')
        pairs['failed.' + name] = (call, failed)
        if name not in ('encrypt', 'mac', 'hash'):
            pairs['raw.' + name] = (['raw', request.hex()], pairs[name][1])
    for name in ('sign', 'failed.activate', 'get.Certificate.X509', 'encrypt', 'failed.mac'):
        call, answer = pairs[name]
        pairs['identified.' + name] = (call, ttlv.identified(answer, trees.ID))
    key = pairs['sign'][1]
    pairs['other_object'] = (['sign', 'mine', '00'], key)
    pairs['reason'] = (['activate', '1'],
                       ttlv.response(0x12, None, status=ttlv.FAILED, reason=0x7FFF, message='m'))
    pairs['levels'] = (['query'], ttlv.response(0x18, [ttlv.nested(58)]))
    pairs['empty'] = (['query'], b'')
    return pairs


def operation_of(library: Library, call: List[str]) -> Operation:
    """A call of words as one of any operation."""
    request: Any = library.request(call)
    minor = request[request.index(bytes.fromhex('42006B02')) + 11]
    payload = json.dumps(trees.json_of(trees.payload_of(trees.parsed(request), trees.REQUEST)))
    made = Operation(NAMES[ttlv.operation_of(request)].encode(), b'1.%d' % minor, payload.encode())
    if library.request(made) != request:
        trees.found('another request', call, made, request.hex())
    named = library.request(made._replace(item_id=trees.ID))
    if not isinstance(named, bytes) or ttlv.id_of(named) != trees.ID:
        trees.found('another request with an ID', call, made, named)
    return made


def main() -> None:
    folder, library = pathlib.Path(sys.argv[1]), Library()
    for name, (call, response) in all_pairs(sys.argv[2]).items():
        asked = operation_of(library, call)
        (folder / (name + '.call')).write_bytes('\n'.join(call).encode())
        (folder / (name + '.response')).write_bytes(response)
        (folder / (name + '.operation')).write_bytes(b'\n'.join(asked[:3]))


if __name__ == '__main__':
    main()
