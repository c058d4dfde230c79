#!/usr/bin/python3
"""Times calls of a KMIP server in other ways than the clients do: measure.py PORT CERTS KMIP_CALL COUNT.

- the server alone: requests that kmip_call wrote, sent again and again over one connection, whose responses nobody reads;
- PyKMIP's own client, over one connection;
- kmip_call itself: with no server, beside /bin/true.
Run it in turn with the clients, in one run: the ratios are what counts.
"""
import json
import logging
import socket
import ssl
import subprocess
import sys
import time
import warnings

warnings.simplefilter('ignore')
logging.disable(logging.CRITICAL)
from kmip.pie.client import ProxyKmipClient          # noqa: E402
from kmip.core import enums                          # noqa: E402
from ttlv import message_of                          # noqa: E402

port, certs, program, count = int(sys.argv[1]), sys.argv[2], sys.argv[3], int(sys.argv[4])
NULL, PIPE = subprocess.DEVNULL, subprocess.PIPE


def timed(who, what, times, step):
    step()
    started = time.perf_counter()
    for _ in range(times):
        step()
    each = (time.perf_counter() - started) / times
    print('%s: %s %.2f ms, %.0f a second' % (who, what, each * 1000, 1 / each), flush=True)


def tls():
    settings = ssl.create_default_context(cafile=certs + '/ca.pem')
    settings.load_cert_chain(certs + '/client.pem', certs + '/client.key')
    wire = settings.wrap_socket(socket.create_connection(('127.0.0.1', port)), server_hostname='localhost')
    wire.setsockopt(socket.IPPROTO_TCP, socket.TCP_NODELAY, 1)
    return wire


def ask(wire, request):
    wire.sendall(request)
    return message_of(wire)


def request_of(*call):
    return subprocess.run([program, *call], stdin=NULL, stdout=PIPE, stderr=NULL, check=False).stdout


def answer_of(wire, *call):
    line = subprocess.run([program, *call], input=ask(wire, request_of(*call)), stdout=NULL, stderr=PIPE, check=True).stderr
    return json.loads(line)['answer']


def main():
    wire = tls()
    key = answer_of(wire, 'create-rsa', '2048', 'measure', 'measure-public')['private_key']
    answer_of(wire, 'activate', key)
    for what, call in (('query', ('query',)), ('sign', ('sign', key, '68656C6C6F'))):
        request = request_of(*call)
        timed('server alone', what, 10 * count if what == 'query' else count, lambda: ask(wire, request))
    timed('TLS', 'handshake', count, lambda: tls().close())
    with ProxyKmipClient(hostname='localhost', port=port, cert=certs + '/client.pem', key=certs + '/client.key', ca=certs + '/ca.pem',
                         ssl_version='PROTOCOL_TLSv1_2') as client:
        timed("PyKMIP's client", 'query', 10 * count, lambda: client.proxy.query(query_functions=[
            enums.QueryFunction.QUERY_OPERATIONS, enums.QueryFunction.QUERY_OBJECTS, enums.QueryFunction.QUERY_SERVER_INFORMATION]))
        parameters = {'cryptographic_algorithm': enums.CryptographicAlgorithm.RSA, 'padding_method': enums.PaddingMethod.PKCS1v15,
                      'hashing_algorithm': enums.HashingAlgorithm.SHA_256}
        timed("PyKMIP's client", 'sign', count, lambda: client.sign(b'hello', uid=key, cryptographic_parameters=parameters))
    timed('kmip_call', 'with no server', count, lambda: request_of('query'))
    timed('/bin/true', 'itself', count, lambda: subprocess.run(['/bin/true'], check=True))
    answer_of(wire, 'revoke', key)
    answer_of(wire, 'destroy', key)


main()
