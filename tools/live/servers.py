#!/usr/bin/python3
"""A server of several, which answers as the fake `good` until it does what its mode says:

    servers.py MODE PORT CERTS READ [1.2|1.3]

Each request that it has read is a line `PORT OPERATION` in the file READ. It writes `ready` once it listens at 127.0.0.1.

good         always
names        always, and the line has the identifier of the request, too
named        the same; SIGUSR1 kills it, and it comes back at once
dies         ends as a process once it has read a request
hangs        reads, and says nothing
slow         answers after 3 seconds
hangs_tls    takes connections, and says no word of TLS
refuses      wants a client of another authority
once         answers one request of each connection, and then ends it
foreign      has a certificate of another authority
pending      says that each request is pending, but one to poll"""
import ctypes
import os
import signal
import socket
import ssl
import sys
import threading
import time

import fakes
from ttlv import PENDING, id_of, identified, message_of, operation_of, response, value_of

POLL = 0x1A
FOR_EVER = 1 << 30      # seconds


class Server:
    def __init__(self, mode, port, certs, read, version='1.3'):
        self.mode, self.port, self.read = mode, int(port), read
        self.context = ssl.SSLContext(ssl.PROTOCOL_TLS_SERVER)
        self.context.minimum_version = self.context.maximum_version = (
            ssl.TLSVersion.TLSv1_2 if version == '1.2' else ssl.TLSVersion.TLSv1_3)
        name = 'other/server' if mode == 'foreign' else 'server'
        self.context.load_cert_chain('%s/%s.pem' % (certs, name), '%s/%s.key' % (certs, name))
        self.context.verify_mode = ssl.CERT_REQUIRED
        self.context.load_verify_locations('%s/%sca.pem' % (certs, 'other/' if mode == 'refuses' else ''))

    def answer(self, wire, request):
        """Answers a request, and says whether the connection goes on."""
        named = b' ' + value_of(request, '420094', 7) if self.mode in ('names', 'named') else b''
        with open(self.read, 'ab', buffering=0) as file:
            file.write(b'%d %d%s\n' % (self.port, operation_of(request), named))
        if self.mode == 'dies':
            os._exit(0)     # with all connections, and none of them in order
        if self.mode == 'hangs':
            time.sleep(FOR_EVER)
        if self.mode == 'slow':
            time.sleep(3)
        if self.mode == 'pending' and operation_of(request) != POLL:
            answer = response(operation_of(request), None, status=PENDING)
        else:
            answer = fakes.answer_of(request)
        wire.sendall(identified(answer, id_of(request)))
        return self.mode != 'once'

    def serve(self, plain):
        if self.mode == 'hangs_tls':
            time.sleep(FOR_EVER)
        try:
            with self.context.wrap_socket(plain, server_side=True) as wire:
                while True:
                    request = message_of(wire)
                    if not request or not self.answer(wire, request):
                        return
        except OSError:
            pass            # the client has ended the connection, or was refused

    def run(self):
        listener = socket.create_server(('127.0.0.1', self.port), backlog=500)
        print('ready', flush=True)
        while True:
            threading.Thread(target=self.serve, args=(listener.accept()[0],), daemon=True).start()


def die_and_come_back(server):
    """Serves in a process that SIGUSR1 kills; then there is another one, a moment later."""
    signal.pthread_sigmask(signal.SIG_BLOCK, [signal.SIGUSR1])
    while True:
        child = os.fork()
        if child == 0:
            ctypes.CDLL(None).prctl(1, signal.SIGKILL)      # it ends with its parent
            server.run()
        signal.sigwait([signal.SIGUSR1])
        os.kill(child, signal.SIGKILL)
        os.waitpid(child, 0)
        time.sleep(0.3)


if __name__ == '__main__':
    if len(sys.argv) not in (5, 6):
        sys.exit('usage: servers.py MODE PORT CERTS READ [1.2|1.3]')
    made = Server(*sys.argv[1:])
    if made.mode == 'named':
        die_and_come_back(made)
    made.run()
