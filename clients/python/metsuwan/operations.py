"""Calls of KMIP 1.2's operations that encrypt, verify and derive, by bytes and texts. They stand on
``call``, and `derive_key`, which takes more than the call of its name, on ``operation``."""
from __future__ import annotations

from typing import Any, Dict, List, NamedTuple, Optional, Sequence, Union

from .calls import Bytes, Option, Word, uses_of
from .errors import MissingValue
from .items import Item, attribute
from .objects import bytes_at, text_at

Names = Union[str, Sequence[str], None]
VALIDITY = {'Valid': True, 'Invalid': False}


class Encrypted(NamedTuple):
    """What a key of the server has encrypted, and the initialization vector, counter or nonce that
    it took, where the server has made one; otherwise None."""

    data: bytes
    iv: Optional[bytes]


def parameters(**given: Optional[str]) -> List[Item]:
    """Cryptographic Parameters with these of their parts, in KMIP's order; none where none are
    given."""
    names = {'mode': 'BlockCipherMode', 'padding': 'PaddingMethod', 'hash': 'HashingAlgorithm',
             'algorithm': 'CryptographicAlgorithm'}
    parts = []
    for name, tag in names.items():
        value = given.get(name)
        if value is None:
            continue
        if not isinstance(value, str):
            raise TypeError('%s is a name of KMIP, and %s was given'
                            % (name, type(value).__name__))
        parts.append(Item(tag, value, 'Enumeration'))
    return [Item('CryptographicParameters', parts)] if parts else []


def attributes_of(usage: Names, name: Optional[str]) -> List[Item]:
    """What an object is for, and its name, as attributes; none where none is given.

    :raises GrammarError: ``usage`` is no names of KMIP
    """
    attributes = []
    if usage is not None:
        attributes.append(attribute('Cryptographic Usage Mask', uses_of(usage)))
    if name is not None:
        if not isinstance(name, str):
            raise TypeError('name is a text, and %s was given' % type(name).__name__)
        attributes.append(attribute('Name', [
            Item('NameValue', name),
            Item('NameType', 'UninterpretedTextString', 'Enumeration')]))
    return attributes


def octets(tag: str, value: Any) -> Item:
    """A Byte String, and of no other type."""
    if not isinstance(value, (bytes, bytearray, memoryview)):
        raise TypeError('%s is bytes, and %s was given' % (tag, type(value).__name__))
    return Item(tag, bytes(value))


def identifier_item(identifier: Any) -> Item:
    """The Unique Identifier of an object."""
    if not isinstance(identifier, str):
        raise TypeError('an identifier is a text, and %s was given' % type(identifier).__name__)
    return Item('UniqueIdentifier', identifier)


class Operations:
    """The methods of a client that stand on ``call`` and ``operation``. Each is of KMIP 1.2 where
    nothing else is said, and raises what every call does: ``ServerError`` where the server refuses,
    as for a key that is not active or may not be used so; ``GrammarError`` for a name that KMIP has
    not. The number of a name, as a vendor has one, is taken by ``operation`` and
    ``derive_key`` alone."""

    def call(self, name: str, /, *words: Word, **options: Option) -> Dict[str, Any]:
        """Makes a call by its words."""
        raise NotImplementedError

    def operation(self, name: str, payload: Any, *, version: str = '1.2') -> Item:
        """Makes a call of any operation."""
        raise NotImplementedError

    def _about(self, identifier: str, name: str, *words: Word, **options: Option) -> Dict[str, Any]:
        """Makes a call about this object. An answer about another one loses the connection."""
        answer = self.call(name, identifier, *words, **options)
        if text_at(answer, 'unique_identifier') != identifier:
            self._is_other()
        return answer

    def _is_other(self) -> None:
        raise NotImplementedError

    def encrypt(self, identifier: str, data: Bytes, *, iv: Optional[Bytes] = None,
                mode: Optional[str] = None, padding: Optional[str] = None,
                algorithm: Optional[str] = None) -> Encrypted:
        """Encrypts these bytes with this key. ``mode`` as ``CBC``, ``padding`` as ``PKCS5`` and
        ``algorithm`` as ``AES``; what is not given is as the key's attributes say, or as the server
        has it. KMIP 1.2."""
        answer = self._about(identifier, 'encrypt', data, iv=iv, mode=mode, padding=padding,
                             algorithm=algorithm)
        made = bytes_at(answer, 'iv_counter_nonce') if 'iv_counter_nonce' in answer else None
        return Encrypted(bytes_at(answer, 'data'), made)

    def decrypt(self, identifier: str, data: Bytes, *, iv: Optional[Bytes] = None,
                mode: Optional[str] = None, padding: Optional[str] = None,
                algorithm: Optional[str] = None) -> bytes:
        """Decrypts these bytes with this key, as ``encrypt`` has it. KMIP 1.2."""
        answer = self._about(identifier, 'decrypt', data, iv=iv, mode=mode, padding=padding,
                             algorithm=algorithm)
        return bytes_at(answer, 'data')

    def mac(self, identifier: str, data: Bytes, *, algorithm: Optional[str] = None,
            hash: Optional[str] = None) -> bytes:
        """The message authentication code of these bytes by this key. ``algorithm`` as
        ``HMAC_SHA256``, or what the key's attributes say. KMIP 1.2."""
        answer = self._about(identifier, 'mac', data, hash=hash, algorithm=algorithm)
        return bytes_at(answer, 'mac_data')

    def mac_verify(self, identifier: str, data: Bytes, mac: Bytes, *,
                   algorithm: Optional[str] = None, hash: Optional[str] = None) -> bool:
        """Whether this is the message authentication code of these bytes by this key. KMIP 1.2.

        :raises MissingValue: the server says neither that it is valid nor that it is not
        """
        return self._is_valid(self._about(identifier, 'mac-verify', data, mac, hash=hash,
                                          algorithm=algorithm))

    def verify(self, identifier: str, data: Bytes, signature: Bytes, *,
               hash: Optional[str] = None, padding: Optional[str] = None,
               algorithm: Optional[str] = None, signature_algorithm: Optional[str] = None) -> bool:
        """Whether this is a signature of these bytes by the private key of this public one.
        ``hash`` as ``SHA256``, ``padding`` as ``PSS``, ``algorithm`` as ``RSA``; or together
        ``signature_algorithm`` as ``SHA_256WithRSAEncryptionPKCS_1V1_5``. KMIP 1.2, Signature
        Verify.

        :raises MissingValue: the server says neither that it is valid nor that it is not
        """
        return self._is_valid(self._about(
            identifier, 'verify', data, signature, hash=hash, padding=padding,
            algorithm=algorithm, signature_algorithm=signature_algorithm))

    @staticmethod
    def _is_valid(answer: Dict[str, Any]) -> bool:
        name = text_at(answer, 'validity_indicator')
        if name not in VALIDITY:
            raise MissingValue('the server does not say whether it is valid: ' + name)
        return VALIDITY[name]

    def derive_key(self, identifiers: Union[str, Sequence[str]], method: str, *, algorithm: str,
                   length: int, data: Optional[Bytes] = None, iv: Optional[Bytes] = None,
                   salt: Optional[Bytes] = None, iterations: Optional[int] = None,
                   mode: Optional[str] = None, padding: Optional[str] = None,
                   hash: Optional[str] = None, cipher: Optional[str] = None,
                   usage: Names = None, name: Optional[str] = None) -> str:
        """Derives a symmetric key of ``algorithm`` and so many bits from an object or from several,
        and returns its identifier. ``method`` as ``PBKDF2``, ``HMAC``, ``HASH`` or ``ENCRYPT``, of
        which each wants its own of ``data``, ``iv``, ``salt``, ``iterations``, ``hash``, and of
        ``mode``, ``padding`` and ``cipher``, the algorithm that encrypts. KMIP 1.0; with ``cipher``
        1.2."""
        sources = [identifiers] if isinstance(identifiers, str) else list(identifiers)
        how = parameters(mode=mode, padding=padding, hash=hash, algorithm=cipher)
        for tag, value in (('InitializationVector', iv), ('DerivationData', data), ('Salt', salt)):
            if value is not None:
                how.append(octets(tag, value))
        if iterations is not None:
            how.append(Item('IterationCount', iterations, 'Integer'))
        attributes = [
            Item('Attribute', [Item('AttributeName', 'Cryptographic Algorithm'),
                               Item('AttributeValue', algorithm, 'Enumeration')]),
            attribute('Cryptographic Length', length), *attributes_of(usage, name)]
        answer = self.operation('DeriveKey', [
            Item('ObjectType', 'SymmetricKey', 'Enumeration'), *map(identifier_item, sources),
            Item('DerivationMethod', method, 'Enumeration'), Item('DerivationParameters', how),
            Item('TemplateAttribute', attributes)])
        return answer.text_at('UniqueIdentifier')

    def rekey(self, identifier: str) -> str:
        """Makes a new symmetric key in the place of this one, with its name and its attributes, and
        returns the identifier of the new one. KMIP 1.0."""
        return text_at(self.call('rekey', identifier), 'unique_identifier')
