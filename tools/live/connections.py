"""The connections of fake servers: what is below the fakes, over TCP and TLS."""
import contextlib
import socket
import ssl
import sys
import tempfile
import threading
import time

import records
from registry import FAKES, OWN_IDS
from ttlv import id_of, identified, message_of


class Together:
    """The TLS of a server, whose bytes go when they are flushed, or before it waits for more: so all go at once."""

    def __init__(self, wire, context):
        self.wire, self.came, self.goes = wire, ssl.MemoryBIO(), ssl.MemoryBIO()
        self.tls = context.wrap_bio(self.came, self.goes, server_side=True)
        self.write = self.tls.write
        self.in_steps(self.tls.do_handshake)

    def in_steps(self, call, *words):
        while True:
            try:
                return call(*words)
            except ssl.SSLWantReadError:
                self.flush()
                piece = self.wire.recv(65536)
                if piece:
                    self.came.write(piece)
                else:
                    self.came.write_eof()

    def recv(self, count):
        return self.in_steps(self.tls.read, count)

    def say_end(self):
        with contextlib.suppress(ssl.SSLWantReadError):
            self.tls.unwrap()

    def flush(self):
        self.wire.sendall(self.goes.read())


def finish(wire):
    """Ends a connection. All that still comes is read: of bytes that are unread at its end the system makes a reset."""
    wire.shutdown(socket.SHUT_WR)
    while wire.recv(65536):
        pass


def by_steps(plain, name, context, before):
    """A connection of `early` or `end_after`; these bytes come with the last ones of the handshake."""
    with plain:
        wire = Together(plain, context)
        wire.write(before)
        wire.flush()
        request = message_of(wire)
        if request and FAKES[name](wire, request):
            finish(plain)


class Recorded:
    """A connection whose records are made by records.py."""

    def __init__(self, plain, tls, made):
        self.recv, self.sendall, self.records = tls.recv, plain.sendall, made


def by_records(plain, name, certs):
    """A connection of `tickets` or `tickets_after`."""
    with plain, tempfile.NamedTemporaryFile() as log:
        context = context_of(certs, 'server')
        context.num_tickets, context.minimum_version = 0, ssl.TLSVersion.TLSv1_3
        context.keylog_filename = log.name
        tls = Together(plain, context)
        tls.flush()
        with records.records_of(tls.tls, log.name) as made:
            FAKES[name](Recorded(plain, tls, made), message_of(tls))


class Wire(ssl.SSLSocket):
    """A connection on which a response has the Unique Batch Item ID of its request."""

    name = None

    def sendall(self, data, flags=0):
        super().sendall(identified(data, self.name), flags)


def connection(plain, name, context):
    with context.wrap_socket(plain, server_side=True, suppress_ragged_eofs=False) as wire:
        if name == 'closing':
            wire.recv(10)
            wire.shutdown(socket.SHUT_WR)
            time.sleep(0.3)
            return
        try:
            while True:
                request = message_of(wire)
                wire.name = None if name in OWN_IDS else id_of(request)
                if not request and hasattr(wire, 'end'):
                    wire.end.how = 'in order'
                if not request or FAKES[name](wire, request):
                    break
        finally:
            if hasattr(wire, 'end'):
                wire.end.is_over.set()
        if request and wire.fileno() >= 0:
            finish(wire)


def serve_each(listener, serve):
    """Has `serve` serve each connection, in a thread of its own."""
    def quietly(wire):
        try:
            serve(wire)
        except OSError:
            pass

    while True:
        wire, _ = listener.accept()
        threading.Thread(target=quietly, args=(wire,), daemon=True).start()


# The names of the servers that listen.
LISTENING = set()


def listen(name, serve, host='127.0.0.1'):
    if name in LISTENING:
        sys.exit('two fake servers are called ' + name)
    LISTENING.add(name)
    family = socket.AF_INET6 if ':' in host else socket.AF_INET
    listener = socket.create_server((host, 0), backlog=100, family=family)
    print(name, listener.getsockname()[1], flush=True)
    threading.Thread(target=serve, args=(listener,), daemon=True).start()


def context_of(certs, name, authority='ca'):
    context = ssl.SSLContext(ssl.PROTOCOL_TLS_SERVER)
    context.load_cert_chain('%s/%s.pem' % (certs, name), '%s/%s.key' % (certs, name))
    context.load_verify_locations('%s/%s.pem' % (certs, authority))
    context.verify_mode = ssl.CERT_OPTIONAL
    context.sslsocket_class = Wire
    # So that it is known whether a connection was ended in order.
    context.options &= ~getattr(ssl, 'OP_IGNORE_UNEXPECTED_EOF', 0)
    return context
