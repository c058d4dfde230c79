#!/usr/bin/env python3
"""Key rotation: a new RSA pair is made, made active and tried; it takes over the name of the old
private key, which is then revoked and destroyed. It writes the new private key's identifier.

    rotate.py HOST PORT CERTIFICATE KEY AUTHORITY OLD-PRIVATE-KEY NAME

Status: 0 done, 1 refused, 2 not of the grammar, 3 the connection is lost or there is none, 4 the
identifier could not be written, 5 out of memory.
"""
import sys

from metsuwan import Client, GrammarError, KmipError
from output import NotWritten, are_closed, fail, write


def rotate(kmip: Client, old: str, name: str) -> str:
    """Each step is done only after the one before it was answered."""
    new = kmip.create_rsa_key_pair(2048, name + ', new', name + ', public').private_key
    kmip.activate(new)
    kmip.sign(new, b'hello')
    kmip.rename(old, name + ', old')
    kmip.rename(new, name)
    kmip.revoke(old)
    kmip.destroy(old)
    return new


def main() -> int:
    if are_closed():
        return fail(NotWritten('standard output or standard error is closed; nothing was sent'))
    if len(sys.argv) != 8:
        return fail(GrammarError('usage: rotate.py HOST PORT CERTIFICATE KEY AUTHORITY '
                                 'OLD-PRIVATE-KEY NAME'))
    host, port, cert, key, ca, old, name = sys.argv[1:]
    try:
        with Client(host, port, cert=cert, key=key, ca=ca) as kmip:
            new = rotate(kmip, old, name)
    except KmipError as error:
        return fail(error)
    except ValueError as error:  # a setting is none
        return fail(GrammarError(str(error)))
    except MemoryError:
        write(sys.stderr, '{"error":"OutOfMemory","text":"out of memory"}\n')
        return 5
    if write(sys.stdout, new + '\n') is None:
        return 0
    return fail(NotWritten('locate finds the new private key by its name'))


if __name__ == '__main__':
    sys.exit(main())
