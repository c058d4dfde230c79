#!/usr/bin/python3
"""Stands between a client and a KMIP server, over TLS on both sides, and does what PyKMIP does not.

    between.py MODE SERVER-PORT CERTS

MODE is one of
    password  passes on what carries the password `secret` of the user `alice`, and answers anything else itself: failed,
              Authentication Not Successful
    half      passes a request on, and the first half of its response, and then kills itself
    head      passes on 5 bytes of a response, and kills itself
It writes `ready PORT` when it listens.
"""
import os
import signal
import socket
import ssl
import sys
import threading

from ttlv import FAILED, id_of, identified, message_of, operation_of, response, value_of

mode, server_port, certs = sys.argv[1], int(sys.argv[2]), sys.argv[3]
AUTHENTICATION_NOT_SUCCESSFUL = 3


def server():
    settings = ssl.create_default_context(cafile=certs + '/ca.pem')
    settings.load_cert_chain(certs + '/client.pem', certs + '/client.key')
    return settings.wrap_socket(socket.create_connection(('127.0.0.1', server_port)), server_hostname='localhost')


def broken_off(wire, piece):
    wire.sendall(piece)
    os.kill(os.getpid(), signal.SIGKILL)


def serve(wire):
    behind = server()
    while request := message_of(wire):
        if mode == 'password' and (value_of(request, '420099', 7), value_of(request, '4200A1', 7)) != (b'alice', b'secret'):
            refusal = response(operation_of(request), None, status=FAILED, reason=AUTHENTICATION_NOT_SUCCESSFUL,
                               message='who are you')
            wire.sendall(identified(refusal, id_of(request)))
            continue
        behind.sendall(request)
        answer = message_of(behind)
        if mode == 'half':
            broken_off(wire, answer[:len(answer) // 2])
        if mode == 'head':
            broken_off(wire, answer[:5])
        wire.sendall(answer)


def connection(context, plain):
    try:
        with context.wrap_socket(plain, server_side=True) as wire:
            serve(wire)
    except OSError:
        pass


def main():
    context = ssl.SSLContext(ssl.PROTOCOL_TLS_SERVER)
    context.load_cert_chain(certs + '/server.pem', certs + '/server.key')
    context.load_verify_locations(certs + '/ca.pem')
    context.verify_mode = ssl.CERT_REQUIRED
    with socket.create_server(('127.0.0.1', 0)) as listener:
        print('ready', listener.getsockname()[1], flush=True)
        while True:
            plain, _ = listener.accept()
            threading.Thread(target=connection, args=(context, plain), daemon=True).start()


main()
