"""Fake servers, good but for their handshakes: no client is to send them a request, or they take no client."""
import ssl

from connections import connection, context_of, finish, serve_each

ALL = {
    'no_certificate': 'is good, with no certificate, by an anonymous cipher',
    'no_encryption': 'is good, by a cipher that encrypts nothing',
    'old_tls': 'is good, by TLS 1.1',
    'refuses': 'takes no certificate of ours, by TLS 1.3: the handshake is done when its alert comes',
    'refuses_early': 'the same by TLS 1.2, within the handshake',
}


def _context(certs, version, ciphers=None):
    context = context_of(certs, 'server')
    context.minimum_version = context.maximum_version = version
    if ciphers:
        context.set_ciphers(ciphers)
    return context


def _without_certificate(certs):
    """(its class of sockets is that of the others)"""
    context = ssl.SSLContext(ssl.PROTOCOL_TLS_SERVER)
    context.sslsocket_class = context_of(certs, 'server').sslsocket_class
    context.maximum_version = ssl.TLSVersion.TLSv1_2
    context.set_ciphers('aNULL:@SECLEVEL=0')
    return context


def _refuse(plain, context):
    """The handshake, which fails here. All that still comes is read, so that the alert is not lost."""
    with context.wrap_socket(plain, server_side=True, do_handshake_on_connect=False) as wire:
        try:
            wire.do_handshake()
        except ssl.SSLError:
            finish(wire)


def _of_another_authority(certs, version):
    context = ssl.SSLContext(ssl.PROTOCOL_TLS_SERVER)
    context.load_cert_chain(certs + '/server.pem', certs + '/server.key')
    context.load_verify_locations(certs + '/other/ca.pem')
    context.verify_mode = ssl.CERT_REQUIRED
    context.minimum_version = context.maximum_version = version
    return context


def servers(certs):
    """By its name what serves the connections of each."""
    new, old = ssl.TLSVersion.TLSv1_3, ssl.TLSVersion.TLSv1_2
    good = {
        'no_certificate': _without_certificate(certs),
        'no_encryption': _context(certs, old, 'eNULL:@SECLEVEL=0'),
        'old_tls': _context(certs, ssl.TLSVersion.TLSv1_1, 'ALL:@SECLEVEL=0'),
    }
    refusing = {'refuses': _of_another_authority(certs, new), 'refuses_early': _of_another_authority(certs, old)}
    made = {name: lambda wire, it=context: connection(wire, 'good', it) for name, context in good.items()}
    made.update({name: lambda wire, it=context: _refuse(wire, it) for name, context in refusing.items()})
    return {name: lambda listener, it=serve: serve_each(listener, it) for name, serve in made.items()}
