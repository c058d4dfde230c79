"""The fake servers, and a client of one of them."""
import atexit
import contextlib
import os
import pathlib
import subprocess
import sys
import tempfile
from typing import Any, Dict, Iterator, List, Optional, Tuple
from unittest import mock

from metsuwan import Client
from metsuwan.wire import Port

from .messages import response

LIVE = pathlib.Path(__file__).resolve().parents[3] / 'tools' / 'live'


def _ports(lines: Iterator[str]) -> Dict[str, int]:
    ports: Dict[str, int] = {}
    for line in lines:
        if line.strip() == 'ready':
            return ports
        name, port = line.split()
        ports[name] = int(port)
    raise RuntimeError('the fakes do not listen')


def _started() -> Tuple[str, Dict[str, int]]:
    """The folder of the certificates, and the ports of the fakes."""
    if 'METSUWAN_FAKES' in os.environ:
        with open(os.environ['METSUWAN_FAKES'], encoding='ascii') as file:
            return os.environ['METSUWAN_CERTS'], _ports(iter(file))
    folder = tempfile.TemporaryDirectory()
    atexit.register(folder.cleanup)
    certs = folder.name + '/certs'
    subprocess.run([str(LIVE / 'certs.sh'), certs], check=True)
    process = subprocess.Popen([sys.executable, '-B', str(LIVE / 'fakes.py'), certs],
                               stdout=subprocess.PIPE, text=True)
    assert process.stdout is not None

    def end() -> None:
        process.kill()
        process.communicate()

    atexit.register(end)
    return certs, _ports(process.stdout)


CERTS, PORTS = _started()


def client_of(fake: str, *, name: str = 'client', host: str = 'localhost',
              timeout: Optional[float] = 60, port: Port = 0, **settings: Any) -> Client:
    """A client of a fake, with the certificate of this name; or of this port."""
    cert, key = ('%s/%s.%s' % (CERTS, name, end) for end in ('pem', 'key'))
    return Client(host, port or PORTS[fake], cert=cert, key=key, ca=CERTS + '/ca.pem',
                  timeout=timeout, **settings)


def new_user() -> str:
    """A user that no fake has seen, also where these tests are run again."""
    return 'user %s' % os.urandom(8).hex()


# The Unique Batch Item ID of each request in what follows.
ID = b'12345678'


@contextlib.contextmanager
def answered(operation: int, *payload: bytes,
             status: int = 0) -> Iterator[Tuple[Client, List[bytes]]]:
    """A client whose requests go nowhere, and are answered by a response of this operation with
    these items; and the requests."""
    asked: List[bytes] = []

    def respond(_: Client, __: object, request: bytes) -> bytes:
        asked.append(request)
        return response(operation, *payload, item_id=ID, status=status)

    with client_of('good') as kmip, mock.patch('os.urandom', return_value=ID):
        with mock.patch.object(Client, '_response', respond):
            yield kmip, asked
