"""What answers hold."""
from __future__ import annotations

from dataclasses import dataclass, field
from typing import Any, Dict, NamedTuple, Optional

from . import keys, pem
from .errors import MissingValue
from .items import Item


def value_at(answer: Any, path: str) -> Any:
    """The value at a path of names, with a dot between two; an item of a list is named by its
    index, counted from 0.

    :raises MissingValue: there is none
    """
    found = answer
    for name in path.split('.'):
        try:
            found = found[int(name) if isinstance(found, list) and name.isdigit() else name]
        except (LookupError, TypeError):
            raise MissingValue('the answer has no %s' % path) from None
    return found


def text_at(answer: Any, path: str) -> str:
    """The text at a path."""
    text = value_at(answer, path)
    if not isinstance(text, str):
        raise MissingValue('the answer has no text at %s' % path)
    return text


def bytes_at(answer: Any, path: str) -> bytes:
    """The bytes at a path, which stand there in hex."""
    try:
        return bytes.fromhex(text_at(answer, path))
    except ValueError:
        raise MissingValue('the answer has no bytes at %s' % path) from None


class KeyPair(NamedTuple):
    """The identifiers of a new pair."""

    private_key: str
    public_key: str


class Signed(NamedTuple):
    """A signature, and the key that made it."""

    unique_identifier: str
    signature_data: bytes


@dataclass(frozen=True, eq=False)
class ManagedObject:
    """An object of the server: a key, a certificate, secret data or other.

    ``object_type`` is KMIP's name of its type, as ``PublicKey``, and ``answer`` the whole answer as
    JSON has it, with what it keeps secret: ``repr`` shows nothing of it. Where the tables of `get`
    have no words for it, as for a key of EC or HMAC or for secret data, ``tree`` is the response's
    payload; otherwise it is None.
    """

    unique_identifier: str
    object_type: str
    answer: Dict[str, Any] = field(repr=False)
    tree: Optional[Item] = field(default=None, repr=False)

    @property
    def _key_block(self) -> str:
        return 'cryptographic_object.%s.key_block.' % self.object_type

    @property
    def key_format_type(self) -> str:
        """The format of a key, as ``PKCS1``.

        :raises MissingValue: it is no key
        """
        if self.tree is not None:
            return self.tree.name_at(self.object_type + '.KeyBlock.KeyFormatType')
        return text_at(self.answer, self._key_block + 'key_format_type')

    @property
    def key_material(self) -> bytes:
        """The bytes of a key whose format is Raw, Opaque, PKCS1, PKCS8, X509 or ECPrivateKey.

        :raises MissingValue: it is no key, has another format, or is wrapped
        """
        if self.tree is not None:
            return self.tree.bytes_at(self.object_type + '.KeyBlock.KeyValue.KeyMaterial')
        return bytes_at(self.answer, self._key_block + 'key_value.key_material.Bytes')

    @property
    def certificate_type(self) -> str:
        """The type of a certificate, ``X509`` or ``PGP``.

        :raises MissingValue: it is no certificate
        """
        return text_at(self.answer, 'cryptographic_object.Certificate.certificate_type')

    @property
    def certificate_value(self) -> bytes:
        """The bytes of a certificate.

        :raises MissingValue: it is no certificate
        """
        return bytes_at(self.answer, 'cryptographic_object.Certificate.certificate_value')

    def pem(self) -> str:
        """A key in X.509, PKCS#1, PKCS#8 or ECPrivateKey, one of RSA or of a curve whose parts are
        told one by one (Transparent), or a certificate in X.509, as PEM.

        :raises MissingValue: it is none of these, or is wrapped
        """
        if self.tree is not None:
            return keys.pem_of_payload(self.tree)
        certificate = self.object_type == 'Certificate'
        format_name = self.certificate_type if certificate else self.key_format_type
        if format_name.startswith('TransparentRSA'):
            return keys.pem_of_parts(format_name, value_at(
                self.answer, self._key_block + 'key_value.key_material.' + format_name))
        label = pem.label_of(self.object_type, format_name)
        if label is None:
            raise MissingValue('%s in %s has no PEM form' % (self.object_type, format_name))
        return pem.text_of(label, self.certificate_value if certificate else self.key_material)
