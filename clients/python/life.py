#!/usr/bin/env python3
"""The life of a key: made, active, read, used, named anew, revoked, destroyed, gone.

    life.py HOST PORT CERTIFICATE KEY AUTHORITY FOLDER [COUNT]

It leaves the public key (PKCS#1) in FOLDER as public.der and public.pem, and the signature of
``hello`` as signature. With a COUNT it also makes ten times so many queries and so many signatures,
and says how long each took.
"""
import pathlib
import sys
import time
from typing import Callable

from metsuwan import Client, GrammarError, ItemNotFound, KmipError, Refused, ServerError
from output import fail


def timed(what: str, count: int, step: Callable[[], object]) -> None:
    started = time.perf_counter()
    for _ in range(count):
        step()
    each = (time.perf_counter() - started) / count
    print('python, library: %s %.2f ms, %.0f a second' % (what, each * 1000, 1 / each))


def refused(step: Callable[[], object], *kinds: type) -> None:
    try:
        step()
    except Refused as error:
        if isinstance(error, kinds):
            return
        raise
    raise AssertionError('it was not refused')


def live(kmip: Client, folder: pathlib.Path, count: int) -> None:
    server = kmip.query()
    assert 'Sign' in server['operations'] and server['vendor_identification']
    pair = kmip.create_rsa_key_pair(2048, 'life, 100%', 'life, public')
    kmip.activate(pair.private_key)
    public = kmip.get(pair.public_key)
    assert (public.object_type, public.key_format_type) == ('PublicKey', 'PKCS1')
    (folder / 'public.der').write_bytes(public.key_material)
    (folder / 'public.pem').write_text(public.pem(), encoding='ascii')
    signed = kmip.sign(pair.private_key, b'hello')
    assert signed.unique_identifier == pair.private_key
    (folder / 'signature').write_bytes(signed.signature_data)
    if count:
        timed('query', 10 * count, kmip.query)
        timed('sign', count, lambda: kmip.sign(pair.private_key, b'hello'))
    kmip.rename(pair.private_key, 'life, renamed')
    kmip.revoke(pair.private_key)
    refused(lambda: kmip.sign(pair.private_key, b'hello'), ServerError)
    kmip.destroy(pair.private_key)
    refused(lambda: kmip.get(pair.private_key), ItemNotFound, ServerError)
    kmip.query()


def main() -> int:
    if len(sys.argv) < 7:
        usage = 'usage: life.py HOST PORT CERTIFICATE KEY AUTHORITY FOLDER [COUNT]'
        return fail(GrammarError(usage))
    host, port, cert, key, ca, folder = sys.argv[1:7]
    count = int(sys.argv[7]) if len(sys.argv) > 7 else 0
    try:
        with Client(host, port, cert=cert, key=key, ca=ca) as kmip:
            live(kmip, pathlib.Path(folder), count)
    except KmipError as error:
        return fail(error)
    return 0


if __name__ == '__main__':
    sys.exit(main())
