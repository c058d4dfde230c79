#!/usr/bin/env python3
"""Calls of several servers: several.py SERVERS CERTIFICATE KEY AUTHORITY [NAME=VALUE].., with
settings. Each line of standard input is a call, or `sleep SECONDS`. What is written stands in
tools/live/several.sh."""
import json
import logging
import pathlib
import sys
import time
from typing import Any, Dict

sys.path.insert(0, str(pathlib.Path(__file__).resolve().parents[2]))
from metsuwan import Client, ConnectionLost, KmipError  # noqa: E402


class Log(logging.Handler):
    def emit(self, record: logging.LogRecord) -> None:
        print('  log', record.getMessage(), flush=True)


def settings_of(words: Any) -> Dict[str, Any]:
    settings: Dict[str, Any] = {}
    for word in words:
        name, value = word.split('=')
        kinds: Dict[str, Any] = {'seconds': float, 'max_age': float, 'reconnect': bool}
        settings['timeout' if name == 'seconds' else name] = kinds.get(name, str)(value)
    return settings


def make_call(kmip: Client, line: str) -> None:
    name, *words = line.split()
    if name == 'sleep':
        time.sleep(float(words[0]))
        return
    status, sent, said = 0, True, ''
    try:
        kmip.call_texts(name, *words)
    except KmipError as error:
        status = 3 if isinstance(error, ConnectionLost) else 1
        sent, said = error.was_sent, json.dumps(error.line())
    print('%s %d sent=%d at %s %s' % (name, status, sent, kmip._server, said), flush=True)


def main() -> None:
    server, cert, key, ca, *words = sys.argv[1:]
    log = logging.getLogger('metsuwan')
    log.setLevel(logging.INFO)
    log.addHandler(Log())
    try:
        kmip = Client(server=server, cert=cert, key=key, ca=ca, **settings_of(words))
    except (KmipError, ValueError) as error:
        print('open', type(error).__name__, error)
        return
    with kmip:
        print('open', kmip._server, flush=True)
        for line in sys.stdin:
            make_call(kmip, line)


main()
