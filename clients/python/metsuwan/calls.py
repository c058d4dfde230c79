"""How values of Python become the words of a call.

The library alone says what is a call, and takes a text or data as it is. These tables say which
values a call takes, so that bytes are not taken for the hex digits of a text, a text for those of
bytes, or a number for either.
"""
from __future__ import annotations

import binascii
from typing import Dict, Iterator, Mapping, NamedTuple, Sequence, Tuple, Union

from .errors import GrammarError
from .library import Call, Operation, Words
from .pem import is_pem

Bytes = Union[bytes, bytearray, memoryview]
Word = Union[str, Bytes, int]
Option = Union[Word, bool, Sequence[str], None]


class Kind(NamedTuple):
    """A kind of word: what it is, and the types of its values."""

    name: str
    types: Tuple[type, ...]


TEXT = Kind('a text', (str,))
BYTES = Kind('bytes', (bytes, bytearray, memoryview))
NUMBER = Kind('a number', (int,))
# Names of what a key is for.
NAMES = Kind('names of KMIP', (str, list, tuple))
# An option that is a name alone, or is left out; and one whose value is `true` or `false`.
FLAG, TRUTH = Kind('True or False', (bool,)), Kind('True or False', (bool,))

# The words of the typed calls; which of these take any number of texts more, and so no options; and
# the options whose values are no texts.
# clients/grammar.py: calls
CALLS: Dict[str, Tuple[Kind, ...]] = {
    'query': (),
    'discover': (),
    'create-rsa': (NUMBER, TEXT, TEXT),
    'create-aes': (NUMBER, TEXT),
    'create': (TEXT, NUMBER, TEXT),
    'register': (TEXT, BYTES),
    'locate': (TEXT,),
    'attributes': (TEXT,),
    'attribute-add': (TEXT,),
    'attribute-modify': (TEXT,),
    'attribute-delete': (TEXT, TEXT),
    'activate': (TEXT,),
    'sign': (TEXT, BYTES),
    'rename': (TEXT, TEXT),
    'get': (TEXT,),
    'revoke': (TEXT,),
    'destroy': (TEXT,),
    'rng': (NUMBER,),
    'raw': (BYTES,),
}
MORE_TEXTS = {'attributes'}
OPTIONS = {'private-usage': NAMES, 'public-usage': NAMES, 'usage': NAMES, 'length': NUMBER,
           'activation': NUMBER, 'index': NUMBER, 'prehashed': FLAG, 'since': NUMBER}
# clients/grammar.py: end

# The same of the calls of the table of operations: bytes stand where the form of a call, which the
# library's refusal shows, has DATA, MAC, SIGNATURE or HEX.
# clients/grammar.py: operations
TABLE: Dict[str, Tuple[Kind, ...]] = {
    'encrypt': (TEXT, BYTES),
    'decrypt': (TEXT, BYTES),
    'mac': (TEXT, BYTES),
    'mac-verify': (TEXT, BYTES, BYTES),
    'verify': (TEXT, BYTES, BYTES),
    'hash': (BYTES,),
    'derive-key': (TEXT, TEXT),
    'rekey': (TEXT,),
    'rekey-pair': (TEXT,),
    'certify': (TEXT,),
    'recertify': (TEXT,),
    'create-ec': (TEXT, TEXT, TEXT),
    'create-pair': (TEXT, NUMBER, TEXT, TEXT),
    'create-key': (TEXT, NUMBER, TEXT),
    'check': (TEXT,),
    'attribute-list': (TEXT,),
    'lease': (TEXT,),
    'usage-allocation': (TEXT, NUMBER),
    'archive': (TEXT,),
    'recover': (TEXT,),
    'validate': (TEXT,),
    'cancel': (BYTES,),
    'poll': (BYTES,),
    'rng-seed': (BYTES,),
}
MORE = {*MORE_TEXTS, 'validate'}
KINDS: Dict[str, Kind] = {
    **OPTIONS, 'random-iv': TRUTH, 'iv-length': NUMBER, 'tag-length': NUMBER,
    'fixed-field-length': NUMBER, 'invocation-field-length': NUMBER, 'counter-length': NUMBER,
    'initial-counter': NUMBER, 'iv': BYTES, 'data': BYTES, 'salt': BYTES, 'iterations': NUMBER,
    'length': NUMBER, 'usage': NAMES, 'offset': NUMBER, 'request': BYTES, 'private-usage': NAMES,
    'public-usage': NAMES, 'count': NUMBER, 'lease': NUMBER}
# clients/grammar.py: end
WORDS = {**CALLS, **TABLE}
TYPED = frozenset(name.encode() for name in CALLS)


# KMIP's names of what an object is for, each with its bit (1.0, 9.1.3.3.1).
# clients/grammar.py: uses
USES = {name: 1 << at for at, name in enumerate((
    'Sign', 'Verify', 'Encrypt', 'Decrypt', 'WrapKey', 'UnwrapKey', 'Export', 'MacGenerate',
    'MacVerify', 'DeriveKey', 'ContentCommitmentNonRepudiation', 'KeyAgreement', 'CertificateSign',
    'CrlSign', 'GenerateCryptogram', 'ValidateCryptogram', 'TranslateEncrypt', 'TranslateDecrypt',
    'TranslateWrap', 'TranslateUnwrap'))}
# clients/grammar.py: end


def uses_of(names: Union[str, Sequence[str]]) -> int:
    """The bits of uses, which are given as the option ``usage`` has them.

    :raises GrammarError: a name is none of a use
    """
    if not isinstance(names, (str, list, tuple)):
        raise TypeError('usage is names of KMIP, and %s was given' % type(names).__name__)
    bits = 0
    for name in names.split(',') if isinstance(names, str) else names:
        if name not in USES:
            raise GrammarError('usage is not names of KMIP: there is no use %s' % name)
        bits |= USES[name]
    return bits


def takes_id(call: Call) -> bool:
    """Whether the request of a call has a Unique Batch Item ID, as that of no typed call has."""
    return isinstance(call, Operation) or call.name not in TYPED


def _kinds_of(name: str, count: int) -> Tuple[Kind, ...]:
    """The kinds of a call's words, which are so many."""
    if name not in WORDS:
        raise GrammarError('there is no call %s' % name)
    kinds = WORDS[name]
    if name in MORE:
        kinds += (TEXT,) * (count - len(kinds))
    if name == 'locate' and count == 0:
        return ()
    if count > len(kinds):
        raise GrammarError('%s: word %d after it is one too many' % (name, len(kinds) + 1))
    if count < len(kinds):
        raise GrammarError('%s: word %d after it is missing: %s'
                           % (name, count + 1, kinds[count].name))
    return kinds


def _check(where: str, kind: Kind, value: Option) -> None:
    """Nothing, where a value is of this kind.

    :raises TypeError: it is not
    """
    if not isinstance(value, kind.types) or isinstance(value, bool) != (bool in kind.types):
        raise TypeError('%s is %s, and %s was given' % (where, kind.name, type(value).__name__))


def _text_of(value: Union[Word, bool, Sequence[str]]) -> str:
    """The text that a value is given as, where it is not data."""
    if isinstance(value, str):
        return value
    if isinstance(value, bool):
        return 'true' if value else 'false'
    if isinstance(value, int):
        return '%d' % value
    if isinstance(value, (bytes, bytearray, memoryview)):
        return bytes(value).hex()
    return ','.join(value)


def _text_word(text: str) -> Tuple[bytes, bool]:
    """A text as a word. One that is not UTF-8 stays so, and the library refuses it."""
    return text.encode('utf-8', 'surrogatepass'), False


def _word(where: str, kind: Kind, value: Word) -> Tuple[bytes, bool]:
    _check(where, kind, value)
    if isinstance(value, (bytes, bytearray, memoryview)):
        return bytes(value), True
    return _text_word(_text_of(value))


def _options_of(name: str, options: Mapping[str, Option]) -> Iterator[str]:
    """The options that are given, each as one text. An index stands behind the attribute."""
    for given, value in sorted(options.items(), key=lambda option: option[0] == 'index'):
        option = given.replace('_', '-')
        kind, where = KINDS.get(option, TEXT), '%s: %s' % (name, option)
        if value is None and name == 'locate':
            # One attribute less would be asked for, and more objects found than were meant.
            raise TypeError('%s is %s, and None was given' % (where, kind.name))
        if value is None or (kind is FLAG and value is False):
            continue
        _check(where, kind, value)
        yield option if kind is FLAG else '%s=%s' % (option, _text_of(value))


def _spelled(digits: bytes) -> bytes:
    """The bytes that hex digits spell; none, where these are others."""
    try:
        return binascii.unhexlify(digits)
    except binascii.Error:
        return b''


def _without_pem(call: Words) -> Words:
    """The same call, where it does not register a text of PEM."""
    for word, is_data in call.words[1:] if call.name == b'register' else ():
        if is_pem(word if is_data else _spelled(word)):
            raise GrammarError('register: the key is PEM, which would be kept as its bytes: '
                               'register_private_key and register_public_key take it')
    return call


def call_of(name: str, words: Sequence[Word], options: Mapping[str, Option] = {}) -> Words:
    """A call of these values: the one place in which arguments become words.

    :raises GrammarError: there is no such call, it has not so many words, or it registers PEM. What
        else is none the library refuses
    :raises TypeError: a value is of another type
    """
    kinds, given = _kinds_of(name, len(words)), list(_options_of(name, options))
    if given and name in MORE:
        # They would be taken for more of its texts.
        raise GrammarError('%s has no options' % name)
    if given and name == 'locate':
        if words:
            raise GrammarError('locate: a name stands alone; beside attributes it is one, name=')
        given.insert(0, 'where')
    made = [_word('%s: word %d after it' % (name, at), kind, value)
            for at, (kind, value) in enumerate(zip(kinds, words), 1)]
    return _without_pem(Words((_text_word(name), *made, *map(_text_word, given))))


def words_of(texts: Sequence[str]) -> Words:
    """A call as it was typed, its name first: numbers in decimal digits, bytes in hex digits, and
    behind its words the options, as ``hash=SHA384``. Where it is none, the library says why.

    :raises GrammarError: it registers PEM
    :raises TypeError: a word is no text
    """
    return _without_pem(Words(tuple(_word('a typed word', TEXT, text) for text in texts)))
