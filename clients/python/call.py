#!/usr/bin/env python3
"""One call, whose arguments are texts. It writes the answer as one line of JSON.

    call.py HOST PORT CERTIFICATE KEY AUTHORITY CALL TEXT..

Beside the calls of the library, as `sign ID HEX hash=SHA384` and `encrypt ID HEX mode=CBC`, there
are `pem IDENTIFIER`, with the options of `get`, and what registers the contents of a file:
`register-private FILE`, `register-public FILE`, `register-certificate FILE` and `register-secret
FILE`, each with `usage=..` and `name=..`; a secret also with `kind=Seed`.

The environment may have KMIP_USER and KMIP_PASSWORD, a credential; KMIP_PASSPHRASE, that of an
encrypted key; KMIP_LIMIT, the most bytes of a response (1048576 where it is not set; 0: no limit);
KMIP_TIMEOUT, the most seconds of connecting and of the call (30; 0: no deadline). With KMIP_PEM
set, a key or a certificate that was got is written as PEM.

Status: 0 answered, 1 refused, 2 not of the grammar, 3 the connection is lost or there is none,
4 the answer could not be written, 5 out of memory. What is no answer is a line of JSON on standard
error.
"""
import json
import os
import sys
from typing import Callable, Dict, List

from metsuwan import Client, GrammarError, KmipError
from metsuwan.calls import words_of
from metsuwan.library import Library
from output import NotWritten, are_closed, fail, write


def number(name: str, otherwise: float) -> float:
    text = os.environ.get(name) or str(otherwise)
    try:
        return float(text)
    except ValueError:
        raise GrammarError('%s is no number' % name) from None


def client_of(settings: List[str]) -> Client:
    host, port, cert, key, ca = settings
    given = os.environ.get
    try:
        return Client(host, port, cert=cert, key=key, ca=ca, user=given('KMIP_USER'),
                      password=given('KMIP_PASSWORD'), passphrase=given('KMIP_PASSPHRASE'),
                      limit=int(number('KMIP_LIMIT', 1 << 20)), timeout=number('KMIP_TIMEOUT', 30))
    except (ValueError, OverflowError) as error:
        raise GrammarError(str(error)) from error


REGISTERS: Dict[str, Callable[..., str]] = {
    'register-private': Client.register_private_key,
    'register-public': Client.register_public_key,
    'register-certificate': Client.register_certificate,
    'register-secret': Client.register_secret}


def registered(settings: List[str], name: str, texts: List[str]) -> str:
    file, *given = texts or ['']
    options = dict(word.partition('=')[::2] for word in given)
    if not set(options) <= {'usage', 'name'} | ({'kind'} if name == 'register-secret' else set()):
        raise GrammarError('%s: there is no such option' % name)
    try:
        with open(file, 'rb') as opened:
            read = opened.read()
    except OSError as error:
        raise GrammarError('%s: %s' % (file, error.strerror)) from error
    with client_of(settings) as kmip:
        made = REGISTERS[name](kmip, read, **options)
        return json.dumps({'answer': {'unique_identifier': made}}) + '\n'


def check(*words: str) -> None:
    """Nothing, where these are a call: for what is none there is no connection."""
    why = Library().refusal(words_of(words))
    if why is not None:
        raise GrammarError(why)


def answer_of(settings: List[str], name: str, texts: List[str]) -> str:
    if name in REGISTERS:
        return registered(settings, name, texts)
    check('get' if name == 'pem' else name, *texts)
    with client_of(settings) as kmip:
        if name == 'pem' or (name == 'get' and os.environ.get('KMIP_PEM')):
            options = dict(option.partition('=')[::2] for option in texts[1:])
            return kmip.get(texts[0], **options).pem()
        return json.dumps({'answer': kmip.call_texts(name, *texts)}) + '\n'


def main() -> int:
    if are_closed():
        return fail(NotWritten('standard output or standard error is closed; nothing was sent'))
    if len(sys.argv) < 7:
        return fail(GrammarError('usage: call.py HOST PORT CERTIFICATE KEY AUTHORITY CALL TEXT..'))
    try:
        answer = answer_of(sys.argv[1:6], sys.argv[6], sys.argv[7:])
    except KmipError as error:
        return fail(error)
    except MemoryError:
        write(sys.stderr, '{"error":"OutOfMemory","text":"out of memory"}\n')
        return 5
    wrong = write(sys.stdout, answer)
    if wrong is None:
        return 0
    return fail(NotWritten('the answer cannot be written: ' + wrong))


if __name__ == '__main__':
    sys.exit(main())
