"""Calls of a KMIP server over TLS."""
from __future__ import annotations

import contextlib
import json
import os
import ssl
import time
from typing import Any, Dict, Iterator, List, Mapping, Optional, Sequence, Tuple, Union

from .batch import (Answer, Batch, ids_of, is_pending, is_undone, message_of, not_done,
                    responses_of, undone)
from .calls import Bytes, Option, Word, call_of, takes_id, words_of
from .carrier import LOG, Carrier
from .errors import (ConnectionLost, GrammarError, KmipError, MissingValue, NotRecorded,
                     OtherObject, RequestWriteError, SerializeError, error_of)
from .items import Item
from .keys import Text, block_of, key_of_pem, registration
from .known import check_context
from .library import (ANSWERED, CALL_GRAMMAR, GRAMMAR, LOST, NO_FORM, NO_MEMORY, REFUSED, Call,
                      Credential, Library, Operation)
from .objects import KeyPair, ManagedObject, Signed, bytes_at, text_at, value_at
from .operations import Names, Operations, attributes_of
from .pem import certificate_der
from .records import Record, record_of
from .servers import Servers, servers_of
from .wire import Passphrase, Port, context_of, is_host

# The most seconds of the opening, and of each call, where no other is given.
TIMEOUT = 30.0
# The calls that change nothing on the server: they may be made twice.
CHANGELESS = frozenset(
    b'query discover locate get attributes sign encrypt decrypt mac mac-verify verify hash check '
    b'attribute-list validate rng Query DiscoverVersions Locate Get GetAttributes GetAttributeList '
    b'Sign SignatureVerify Encrypt Decrypt MAC MACVerify Hash Check Validate RNGRetrieve'.split())
# Those about a call that is pending, which are for the server that has said so.
OF_PENDING = frozenset((b'poll', b'cancel', b'Poll', b'Cancel'))
Payload = Union[str, Mapping[str, Any], Sequence[Mapping[str, Any]]]


def _credential(user: Optional[str], password: Optional[str]) -> Credential:
    if user is None and password is None:
        return None
    if user is None or password is None:
        raise ValueError('a credential is a user and a password')
    for what, text in (('user', user), ('password', password)):
        if not isinstance(text, str):
            raise TypeError('a %s is a text, and %s was given' % (what, type(text).__name__))
    try:
        return user.encode(), password.encode()
    except UnicodeEncodeError:
        raise ValueError('the user or the password is not UTF-8') from None


def check_age(max_age: Optional[float]) -> None:
    """An age is one.

    :raises ValueError: it is none
    """
    is_number = isinstance(max_age, (int, float)) and not isinstance(max_age, bool)
    if max_age is not None and not (is_number and max_age > 0):
        raise ValueError('a max_age is a number of seconds, or None')


def check_timeout(timeout: Optional[float]) -> None:
    """A timeout is one.

    :raises TypeError: it is no number
    :raises ValueError: it is negative, or past 1e9
    """
    if timeout is None:
        return
    if isinstance(timeout, bool) or not isinstance(timeout, (int, float)):
        raise TypeError('a timeout is a number of seconds, and %s was given'
                        % type(timeout).__name__)
    if not 0 <= timeout < 1e9:
        raise ValueError('a timeout is 0 to 1e9 seconds')


def _files(*files: Optional[str]) -> Tuple[str, str, str]:
    cert, key, ca = files
    if cert is None or key is None or ca is None:
        raise TypeError('cert, key and ca have to be given, or a context')
    return cert, key, ca


class Client(Carrier, Operations):
    """One connection to a KMIP server, as a context manager. Threads may share it: one call at a
    time is made on it. It is of the process that made it: in a child of a fork its calls are
    refused, nothing is sent, and leaving its ``with`` block ends nothing of the parent's.

    :param host: the name or address that the server's certificate has to have
    :param port: a number, or the name of a service
    :param server: in the place of these two one or several servers, of which another is asked where
        one fails, as ``'a.example:5696,b.example,[::1]:5697'``, or a list of such texts; their port
        is 5696 where none stands. A call that makes or changes something, and of which a byte went
        out, is sent to no other. All of them have one set of objects (README.md)
    :param order: ``first``, where not given: the first that is not left out since it failed; or
        ``turns``: each connection goes to the next
    :param server_name: what each certificate has to have in the place of its host
    :param max_age: the most seconds of a connection that is opened again; then the order of the
        servers begins in front
    :param cert: PEM file of the client's certificate, and after it those of authorities between
    :param key: PEM file of its private key
    :param ca: PEM file of the authority of the server's certificate; no other is trusted
    :param passphrase: that of a private key that is encrypted; no terminal is asked
    :param context: in the place of these four a context of ``ssl``, as for a key in hardware or
        for lists of revoked certificates. It has to verify the server's certificate
        (``CERT_REQUIRED``) and name (``check_hostname``), and to have no ``post_handshake_auth``
    :param user: with ``password`` a credential in each request
    :param limit: the most bytes of a response, its head counted; 0: no limit
    :param timeout: the most seconds of the opening, and of each call, whatever the server does;
        None or 0: no deadline
    :param reconnect: a connection that is lost is opened again for the next call. A call itself is
        made again, once, where nothing of it was sent, or where it changes nothing, as ``get`` and
        ``sign``; the logger ``metsuwan`` tells of it
    :param record: a function that is told, of each exchange whose whole response came, a line with
        the request, without the credential, and the response, as ``file.write``: keys stand in it
        where they were sent or given. ``kmip_run replay`` answers those that begin with ``raw``
        again; the others begin with ``message``
    :param library: the path of ``libmetsuwan.so``; if it is left out, the environment's
        ``LIBMETSUWAN``, that of this package, or the system's
    :raises ConnectError: there is no connection; its ``__cause__`` is the error of ``ssl`` or
        ``socket``
    :raises LibraryError: there is no library
    :raises ValueError: a setting is none
    :raises TypeError: a setting is of another type, or missing
    """

    def __init__(self, host: Optional[str] = None, port: Optional[Port] = None, *,
                 server: Union[str, Sequence[str], Servers, None] = None, order: str = 'first',
                 server_name: Optional[str] = None, max_age: Optional[float] = None,
                 cert: Optional[str] = None, key: Optional[str] = None, ca: Optional[str] = None,
                 passphrase: Passphrase = None, context: Optional[ssl.SSLContext] = None,
                 user: Optional[str] = None, password: Optional[str] = None,
                 limit: int = 1 << 20, timeout: Optional[float] = TIMEOUT, reconnect: bool = False,
                 record: Record = None, library: Optional[str] = None) -> None:
        if isinstance(limit, bool) or not isinstance(limit, int):
            raise TypeError('a limit is an int, and %s was given' % type(limit).__name__)
        if not 0 <= limit < 1 << 32:
            raise ValueError('a limit is 0 to 4294967295')
        check_timeout(timeout)
        check_age(max_age)
        servers = servers_of(host, port, server, order)
        if server_name is not None and not is_host(server_name):
            raise ValueError('server_name is no name, and no address')
        self._credential = _credential(user, password)
        self._library = Library(library)
        self._limit, self._record = limit, record
        if context is None:
            context = context_of(*_files(cert, key, ca), passphrase)
        elif (cert, key, ca, passphrase) != (None,) * 4:
            raise TypeError('a context stands in the place of cert, key, ca and passphrase')
        else:
            check_context(context)
        super().__init__(servers, server_name, context, timeout or None, reconnect, max_age)

    def __repr__(self) -> str:
        is_there = self._wire is not None and self._is_own()
        return '<Client of %s, %s>' % (self._server, 'open' if is_there else 'closed')

    def __enter__(self) -> 'Client':
        return self

    def __exit__(self, *_: object) -> None:
        self.close()

    def close(self) -> None:
        """Ends the connection, once a call that another thread makes has ended. A client that is
        closed makes no more calls.

        :raises RuntimeError: this thread is within a call, and this is a handler of a signal. An
            exception that the handler raises ends the call, and closes the client.
        """
        if not self._is_own():
            self._is_ended = True
            self._end(False)
            return
        with self._alone():
            self._is_ended = True
            self._end(True)

    def call(self, name: str, /, *words: Word, **options: Option) -> Dict[str, Any]:
        """Makes a call, and returns its answer as JSON has it.

        ``name`` is that of a typed call, as ``sign``, or of one of the table of operations, as
        ``encrypt``; the words behind it are texts, bytes or numbers, as they are. ``options`` have
        ``_`` in the place of ``-``; one that is None is not given. What the answer has is a text, a
        number, a truth value, a dict, or a list where it comes more than once; bytes are in hex::

            kmip.call('encrypt', '5', b'hello', mode='CBC', iv=bytes(16))['data']

        The request of a call of the table has eight random bytes as its Unique Batch Item ID. An
        answer with another one, or with none, is that of another call. Whether it is about the
        object that was asked about is then the caller's to look at.

        :raises KmipError: by kind, as ``ItemNotFound``
        :raises TypeError: a word is of another type than the call wants
        """
        return self._answer_to(call_of(name, words, options))

    def call_texts(self, *texts: str) -> Dict[str, Any]:
        """Makes a call as it is typed in a line: its name, its words, and then its options, as
        ``hash=SHA384``. Numbers are in decimal digits, and bytes in hex.

        :raises KmipError: by kind, as ``ItemNotFound``
        """
        return self._answer_to(words_of(texts))

    def operation(self, name: str, payload: Payload, *, version: str = '1.2') -> Item:
        """Makes a call of any operation of KMIP 1.0 to 1.2, by its name, as ``Encrypt``.

        ``payload`` has the items of the request's payload, as ``[Item('UniqueIdentifier', '4'),
        Item('Data', b'hello')]``; or it is the whole payload, tagged ``RequestPayload``, as an item
        or as a text in the JSON of KMIP's Additional Message Encodings. What is returned is the
        response's payload. Whether it is about the object that was asked about is the caller's to
        look at.

        The request has eight random bytes as its Unique Batch Item ID. An answer with another one,
        or with none, is that of another call.

        :raises KmipError: by kind, as ``ItemNotFound``, with the server's message
        :raises OtherObject: the answer is that of another call
        :raises GrammarError: the operation or the version has another name, or the payload is none
        """
        if not isinstance(payload, (str, Mapping)):
            payload = Item('RequestPayload', list(payload))
        text = payload if isinstance(payload, str) else json.dumps(payload)
        try:
            call = Operation(name.encode(), version.encode(), text.encode())
        except UnicodeEncodeError:
            raise GrammarError('the operation, the version or the payload is not UTF-8') from None
        answer = self._answer_to(call)
        return answer if isinstance(answer, Item) else Item.of_json(answer)

    def _wrong_with(self, call: Call) -> str:
        """What is wrong with a call that the library does not take."""
        return self._library.refusal(call) or 'the call is none'

    def _answer_to(self, call: Call) -> Dict[str, Any]:
        with self._alone():
            status, line, response = self._exchange(call)
            unwritten = self._keep([call], response)
        if unwritten is None:
            return self._read(call, status, line)
        try:
            answer: Answer = self._read(call, status, line)
        except KmipError as error:
            answer = error
        raise NotRecorded(str(unwritten), answer) from unwritten

    def _keep(self, calls: List[Call], response: bytes,
              batch: Optional[Tuple[List[bytes], int]] = None) -> Optional[Exception]:
        """Tells the record of an exchange, or gives the error of that. The request in it has no
        credential, and no Unique Batch Item ID but those of a batch, which come with what the
        server does after an error."""
        if self._record is None or not response:
            return None
        requests = map(self._library.request, calls)
        made = [request for request in requests if isinstance(request, bytes)]
        if len(made) < len(calls):
            return MemoryError('out of memory')
        request = message_of(made, *batch) if batch else made[0]
        try:
            self._record(record_of(self._library, request, response))
        except Exception as error:  # whatever the function raises, the call has been made
            return error
        return None

    def _read(self, call: Call, status: int, line: str) -> Dict[str, Any]:
        """The answer in a line of JSON, or the error that it is."""
        if status == NO_MEMORY:
            raise MemoryError
        if status == CALL_GRAMMAR:
            raise GrammarError(self._wrong_with(call))
        answer = json.loads(line)
        if status != ANSWERED:
            raise error_of(status, answer)
        payload = answer['answer']
        if not isinstance(payload, dict):
            raise MissingValue('the answer is no object')
        # What the tables of a call have no words for is the response's payload.
        return Item.of_json(payload) if payload.get('tag') == 'ResponsePayload' else payload

    def batch(self, *, on_error: str = 'Continue') -> Batch:
        """A batch, to which calls are added, and which is then sent as one message. After a call
        that failed the server goes on (``Continue``), ends (``Stop``), or takes back what it did
        (``Undo``), so far as it can: that is KMIP's Batch Error Continuation Option."""
        return Batch(self, on_error)

    def _check(self, call: Call) -> None:
        """Nothing, where it is a call.

        :raises GrammarError: it is none
        """
        request = self._library.request(call)
        if request == GRAMMAR:
            raise GrammarError(self._wrong_with(call))
        if request == NO_FORM:
            raise SerializeError('request has no wire form')

    def _send(self, calls: List[Call], on_error: int) -> List[Answer]:
        """Makes these calls in one message, and gives the answer or the error of each."""
        requests = [self._library.request(call, self._credential) for call in calls]
        made = [request for request in requests if isinstance(request, bytes)]
        if len(made) < len(calls):
            raise MemoryError
        with self._alone(), self._logged('a batch of %d' % len(calls)) as log:
            try:
                ids = ids_of(self._item_id(), len(calls))
                is_changeless = all(call.name in CHANGELESS for call in calls)
                message = message_of(made, ids, on_error)
                response = self._response_again(message, is_changeless)
                unwritten = self._keep(calls, response, (ids, on_error))
                responses = responses_of(response, ids, on_error)
            except BaseException:
                self._end(False)
                raise
            log.append('done')
            answers = [self._answer_of(*pair) for pair in zip(calls, responses)]
            if any(isinstance(answer, ConnectionLost) for answer in answers):
                self._end(False)
        if unwritten is not None:
            raise NotRecorded(str(unwritten), answers) from unwritten
        return answers

    def _answer_of(self, call: Call, response: bytes) -> Answer:
        if not response:
            return not_done()
        status, line = self._library.answer(call, response)
        if status == REFUSED and is_undone(response):
            return undone()
        try:
            return self._read(call, status, line)
        except KmipError as error:
            return error

    @contextlib.contextmanager
    def _logged(self, what: str) -> Iterator[List[str]]:
        """Tells the logger what came of a call, with no value of it."""
        said: List[str] = []
        begin = time.monotonic()
        try:
            yield said
        except BaseException as error:
            said.append(getattr(error, 'kind', type(error).__name__))
            raise
        finally:
            LOG.debug('%s: %s: %s, %.1f ms', self._server, what, ', '.join(said),
                      (time.monotonic() - begin) * 1000)

    def query(self) -> Dict[str, Any]:
        """What the server can do: ``operations`` and more."""
        return self.call('query')

    def create_rsa_key_pair(self, bits: int, private_key_name: str, public_key_name: str, *,
                            private_usage: Names = None, public_usage: Names = None) -> KeyPair:
        """Makes a pair under these names, to sign and to verify with, or for these uses."""
        pair = self.call('create-rsa', bits, private_key_name, public_key_name,
                         private_usage=private_usage, public_usage=public_usage)
        return KeyPair(text_at(pair, 'private_key'), text_at(pair, 'public_key'))

    def create_aes(self, bits: int, name: str) -> str:
        """Makes an AES key to encrypt and decrypt with, under this name."""
        return text_at(self.call('create-aes', bits, name), 'unique_identifier')

    def create(self, algorithm: str, bits: int, name: str, *, usage: Names = None) -> str:
        """Makes a symmetric key of this algorithm, as ``AES``, to encrypt and decrypt with, or for
        these uses."""
        return text_at(self.call('create', algorithm, bits, name, usage=usage), 'unique_identifier')

    def register(self, kind: str, material: Bytes, *, format: str, algorithm: str, length: int,
                 usage: Names = None, name: Optional[str] = None) -> str:
        """Has the server keep a key that was made elsewhere. ``kind`` is ``public``, ``private``
        or ``symmetric``, ``format`` as ``PKCS8`` says what the bytes are, and
        ``algorithm`` is ``DES``, ``TRIPLE_DES``, ``AES`` or ``RSA``: a key of another, as an HMAC
        key, is registered by ``operation``, and PEM by ``register_private_key`` and
        ``register_public_key``.

        :raises GrammarError: the bytes are PEM, which is no format of KMIP
        """
        answer = self.call('register', kind, material, format=format, algorithm=algorithm,
                           length=length, usage=usage, name=name)
        return text_at(answer, 'unique_identifier')

    def register_certificate(self, certificate: Union[str, Bytes], *, usage: Names = None,
                             name: Optional[str] = None) -> str:
        """Has the server keep an X.509 certificate, and returns its identifier. It is given as DER
        or as a PEM that holds it and no other. Where ``usage`` or ``name`` is not given, the server
        gets nothing of it.

        :raises GrammarError: it is neither DER nor PEM, or ``usage`` is no names of KMIP
        """
        parts = [Item('CertificateType', 'X509', 'Enumeration'),
                 Item('CertificateValue', certificate_der(certificate))]
        return self._register('Certificate', parts, usage, name)

    def register_private_key(self, pem: Text, *, usage: Names = None,
                             name: Optional[str] = None) -> str:
        """Has the server keep the private key of RSA, of a curve, or of DSA that a text of PEM
        holds, as OpenSSL writes it (PKCS#1, PKCS#8, ECPrivateKey), and returns its identifier.

        :raises GrammarError: it has none, another block too, or an encrypted one; or KMIP 1.2 has
            no name for its algorithm or its curve. Nothing was sent
        """
        return self._register_key('PrivateKey', pem, usage, name)

    def register_public_key(self, pem: Text, *, usage: Names = None,
                            name: Optional[str] = None) -> str:
        """The same with a public key (X.509's SubjectPublicKeyInfo, or PKCS#1).

        :raises GrammarError: as ``register_private_key``
        """
        return self._register_key('PublicKey', pem, usage, name)

    def _register_key(self, kind: str, pem: Text, usage: Names, name: Optional[str]) -> str:
        key = key_of_pem(pem, kind)
        block = block_of(key.format, key.der,
                         Item('CryptographicAlgorithm', key.algorithm, 'Enumeration'),
                         Item('CryptographicLength', key.length))
        return self._register(kind, [block], usage, name)

    def register_secret(self, data: Bytes, *, kind: str = 'Password', usage: Names = None,
                        name: Optional[str] = None) -> str:
        """Has the server keep a secret that is no key: a ``Password``, or the ``Seed`` of one.

        :raises GrammarError: ``kind`` is neither
        """
        if not isinstance(data, (bytes, bytearray, memoryview)):
            raise TypeError('a secret is bytes, and %s was given' % type(data).__name__)
        if kind not in ('Password', 'Seed'):
            raise GrammarError('a secret is a Password or a Seed')
        parts = [Item('SecretDataType', kind, 'Enumeration'), block_of('Opaque', bytes(data))]
        return self._register('SecretData', parts, usage, name)

    def _register(self, kind: str, parts: List[Item], usage: Names, name: Optional[str]) -> str:
        attributes = attributes_of(usage, name)
        answer = self.operation('Register', registration(kind, attributes, parts), version='1.0')
        return answer.text_at('UniqueIdentifier')

    def rng_retrieve(self, count: int) -> bytes:
        """So many random bytes."""
        return bytes_at(self.call('rng', count), 'random_bytes')

    def activate(self, identifier: str) -> None:
        """Makes a key active."""
        self.call('activate', identifier)

    def sign(self, identifier: str, message: Bytes, *, hash: Optional[str] = None,
             padding: Optional[str] = None, algorithm: Optional[str] = None,
             prehashed: bool = False) -> Signed:
        """Signs these bytes with this private key: where no option is given, by RSA with SHA256
        and the padding PKCS1_v1_5. With ``prehashed`` they are a digest: the request names no
        hash, and ``hash`` may not be given."""
        answer = self.call('sign', identifier, message, hash=hash, padding=padding,
                           algorithm=algorithm, prehashed=prehashed)
        return Signed(text_at(answer, 'unique_identifier'), bytes_at(answer, 'signature_data'))

    def rename(self, identifier: str, new_name: str) -> None:
        """Gives a key another name."""
        self.call('rename', identifier, new_name)

    def add_attribute(self, identifier: str, /, **attribute: Option) -> None:
        """Gives an object one more attribute, as ``group='issuing'``."""
        self.call('attribute-add', identifier, **attribute)

    def modify_attribute(self, identifier: str, /, *, index: Optional[int] = None,
                         **attribute: Option) -> None:
        """Gives an attribute of an object another value, as ``name='retired'``."""
        self.call('attribute-modify', identifier, **attribute, index=index)

    def delete_attribute(self, identifier: str, name: str, *, index: Optional[int] = None) -> None:
        """Takes an attribute with this name, as ``Object Group``, from an object."""
        self.call('attribute-delete', identifier, name, index=index)

    def get(self, identifier: str, *, format: Optional[str] = None,
            wrap: Optional[str] = None) -> ManagedObject:
        """An object itself: in the format that it has or in this one, and wrapped under the key
        with the identifier ``wrap``. One that the tables of this call have no words for, as a key
        of EC or HMAC, has its payload in ``tree``."""
        answer = self.call('get', identifier, format=format, wrap=wrap)
        if isinstance(answer, Item):
            return ManagedObject(answer.text_at('UniqueIdentifier'), answer.name_at('ObjectType'),
                                 answer, answer)
        return ManagedObject(text_at(answer, 'unique_identifier'), text_at(answer, 'object_type'),
                             answer)

    def attributes(self, identifier: str, *names: str) -> List[Dict[str, Any]]:
        """The attributes of an object, each with its name and its value: all, or those with these
        names. Where one of them is none of this call's tables, each is an item of the response:
        ``it.text_at('AttributeName')``."""
        answer = self.call('attributes', identifier, *names)
        if isinstance(answer, Item):
            return [Item.of_json(item) for item in answer['value'] if item['tag'] == 'Attribute']
        return list(value_at(answer, 'attributes'))

    def locate(self, /, *name: str, **attributes: Option) -> List[str]:
        """The identifiers of the objects with this name, or with all of these attributes, as
        ``locate(name='issuing', state='Active')``; of all objects, where nothing is given. There
        may be none. An attribute that is None is an error, since more objects would be found."""
        return list(value_at(self.call('locate', *name, **attributes), 'unique_identifiers'))

    def discover(self) -> List[Dict[str, int]]:
        """The versions of KMIP that the server speaks."""
        return list(value_at(self.call('discover'), 'supported_versions'))

    def revoke(self, identifier: str, *, reason: Optional[str] = None,
               message: Optional[str] = None, since: Optional[int] = None) -> None:
        """Takes a key out of use: as CessationOfOperation, or for this reason. ``since`` is the
        date of a compromise, in seconds since 1970-01-01 UTC."""
        self.call('revoke', identifier, reason=reason, message=message, since=since)

    def destroy(self, identifier: str) -> None:
        """Destroys a key that is not active."""
        self.call('destroy', identifier)

    def _item_id(self) -> bytes:
        """A Unique Batch Item ID, which no answer to another call has."""
        try:
            return os.urandom(8)
        except (NotImplementedError, OSError) as error:
            self._end(False)
            raise RequestWriteError('no random bytes for the Unique Batch Item ID: %s; nothing was '
                                    'sent' % error) from error

    def _is_other(self) -> None:
        with self._alone():
            self._end(False)
        raise OtherObject('the response is about another object')

    def _exchange(self, call: Call) -> Tuple[int, str, bytes]:
        """The status of a call, its line of JSON, and the response. Whatever goes wrong, a
        connection of which it is not known what comes next is closed."""
        if takes_id(call):
            call = call._replace(item_id=self._item_id())
        request = self._library.request(call, self._credential)
        if request == GRAMMAR:
            return CALL_GRAMMAR, '', b''
        if request == NO_FORM:
            raise SerializeError('request has no wire form')
        if self._wire is None and not self._reconnects:
            raise RequestWriteError('the connection is closed; nothing was sent')
        if not isinstance(request, bytes):
            self._end(False)
            return NO_MEMORY, '', b''
        with self._logged(call.name.decode()) as log:
            try:
                only = self._pending_at if call.name in OF_PENDING else None
                response = self._response_again(request, call.name in CHANGELESS, only)
                status, line = self._library.answer(call, response)
            except BaseException:
                self._end(False)
                raise
            log += ['status %d' % status, '%d bytes sent, %d read' % (len(request), len(response))]
        if status in (LOST, NO_MEMORY):
            self._end(False)
        if status == REFUSED and is_pending(response):
            self._pending_at = self._at
        return status, line, response
