#!/usr/bin/python3
"""Tries the library with responses that are well formed and changed in structure, and checks lines.

    trees.py CORPUS SEED ROUNDS     responses of CORPUS as trees, in which items are taken out,
                                    doubled, swapped, moved, retyped, tagged anew, wrapped, given
                                    other values
    trees.py --lines FILE           the lines of fuzz.c, each with its status in front

What is checked of a line: it is one line of strict JSON in UTF-8, without a name twice, with the
members that its status wants. What is checked of the library: kmip_value at each path of an answer
gives what the JSON has there, and nothing at paths that it has not; the answer to any operation
is the payload of the response: as the payload of a request it gives the same bytes; the plain
answer has the same values by the names of their tags; and with a Unique Batch Item ID the answer is
the same, but where the response is to another item. LIBMETSUWAN is the library.
"""
import collections
import json
import pathlib
import random
import re
import sys
from typing import Any, Dict, Iterator, List, Optional, Tuple

TOP = pathlib.Path(__file__).resolve().parents[4]
sys.path[:0] = [str(TOP / 'tools' / 'live')]
import ttlv                                                     # noqa: E402
from library import GRAMMAR, Library, Operation, Words, known   # noqa: E402

Item = List[Any]                                # tag, type, and bytes or a list of items
TYPES = ['', 'Structure', 'Integer', 'LongInteger', 'BigInteger', 'Enumeration', 'Boolean',
         'TextString', 'ByteString', 'DateTime', 'Interval']
REFUSALS = ('ServerError', 'ItemNotFound', 'InternalError')
MEMBERS = {'error', 'text', 'response', 'reason', 'message'}
LOSSES = ('DeserializeError', 'ResponseReadError', 'InternalError', 'ServerError')
TAGS = [0x420008, 0x420009, 0x42000A, 0x42000B, 0x42000D, 0x42000F, 0x420028, 0x42002A, 0x420040,
        0x420042, 0x420043, 0x420045, 0x420054, 0x420055, 0x420057, 0x42005C, 0x420066, 0x42006F,
        0x420069, 0x42006A, 0x42006B, 0x42007C, 0x42007D, 0x42007E, 0x42007F, 0x420092, 0x420094,
        0x420093, 0x42009D, 0x4200C2, 0x4200C3, 0x540001, 0, 0xFFFFFF]
TEXTS = ['', '"', '\\', '\n\r\t\b\f', '\0', '\x7f', '\xe9', '\u2028\u2029', '\ufeff', '\U0001f600',
         '\ufffe\uffff', 'x' * 1000, '</script>', '\x01' * 7, 'a' * 8, 'a' * 9]
NUMBERS = [0, 1, 2, 3, 4, 5, 6, 8, 10, 18, 0x21, 0x25, 0xFF, 0x100, 1 << 31, (1 << 31) - 1,
           (1 << 32) - 1, 0x80000001]
LARGE = [0, 1, (1 << 53) + 1, (1 << 63) - 1, 1 << 63, (1 << 64) - 1, 1700000000]
WIDTHS = {2: 4, 5: 4, 10: 4, 3: 8, 6: 8, 9: 8}
REQUEST, RESPONSE = 0x420079, 0x42007C          # the tags of payloads
BATCH_ITEM, BATCH_COUNT, ITEM_ID, OPERATION = 0x42000F, 0x42000D, 0x420093, 0x42005C
RESPONSE_MESSAGE, RESPONSE_HEADER, STATUS = 0x42007B, 0x42007A, 0x42007F
ID = bytes(range(1, 9))                         # that of some responses of the corpus
OTHER = "Response does not have the request's Unique Batch Item ID"


def found(*what: object) -> None:
    print('FOUND', *what)
    sys.exit(1)


# Lines of JSON.

def once(pairs: List[Tuple[str, Any]]) -> Any:
    names = [name for name, _ in pairs]
    if len(set(names)) != len(names):
        raise ValueError('a name stands twice')
    return dict(pairs)


def no_constant(text: str) -> Any:
    raise ValueError(text)


def is_reason(reason: Any) -> bool:
    """Whether it is a number, and the name of it where KMIP has one."""
    return isinstance(reason, dict) and list(reason) in (['number'], ['name', 'number']) \
        and isinstance(reason['number'], int) and isinstance(reason.get('name', ''), str)


def check_line(status: int, line: bytes) -> Any:
    """The object of a line."""
    try:
        text = line.decode('utf-8')
        if not text.endswith('\n') or text.count('\n') != 1:
            raise ValueError('it is not one line')
        line_object = json.loads(text, object_pairs_hook=once, parse_constant=no_constant)
        if status == 0:
            if list(line_object) != ['answer']:
                raise ValueError('its members are others')
        elif list(line_object)[:2] != ['error', 'text'] or not set(line_object) <= MEMBERS:
            raise ValueError('its members are others')
        elif line_object['error'] not in (REFUSALS if status == 1 else LOSSES):
            raise ValueError('its error is of another status')
        elif not isinstance(line_object['text'], str):
            raise ValueError('its text is none')
        elif 'reason' in line_object and not is_reason(line_object['reason']):
            raise ValueError('its reason is none')
    except ValueError as error:
        found(error, status, line[:300])
    return line_object


def check_lines(path: str) -> None:
    kinds: 'collections.Counter[str]' = collections.Counter()
    with open(path, 'rb') as lines:
        for line in lines:
            status = int(line[:1])
            kinds['%d %s' % (status, check_line(status, line[2:]).get('error', 'answer'))] += 1
    print('lines:', dict(sorted(kinds.items())))


# Trees.

def parsed(message: bytes) -> List[Item]:
    return [[tag, kind, parsed(value) if kind == 1 else value]
            for tag, kind, value in ttlv.typed_items_in(message)]


def written(items: List[Item]) -> bytes:
    return b''.join(ttlv.item(tag, kind, written(value) if isinstance(value, list) else value)
                    for tag, kind, value in items)


def payload_of(message: List[Item], tag: int) -> Item:
    """The payload of a message; one of no items where its batch items have none."""
    for outer, _, value in message[0][2]:
        for item in value if outer == BATCH_ITEM and isinstance(value, list) else []:
            if item[0] == tag:
                return list(item)
    return [tag, 1, []]


def json_of(item: Item) -> Any:
    """An item in KMIP's JSON, with tags, numbers of enumerations and dates in hex digits."""
    tag, kind, value = item
    shown = {'tag': '0x%06X' % tag, 'type': TYPES[kind]}
    if kind == 1:
        return {**shown, 'value': [json_of(part) for part in value]}
    if kind in (2, 10):
        return {**shown, 'value': int.from_bytes(value, 'big', signed=kind == 2)}
    if kind in (6, 7):
        return {**shown, 'value': value[-1] == 1 if kind == 6 else value.decode()}
    return {**shown, 'value': ('' if kind == 8 else '0x') + value.hex().upper()}


def places(items: List[Item]) -> Iterator[Tuple[List[Item], int]]:
    for at, item in enumerate(items):
        yield items, at
        if isinstance(item[2], list):
            yield from places(item[2])


def copied(item: Item) -> Item:
    tag, kind, value = item
    return [tag, kind, [copied(part) for part in value] if isinstance(value, list) else value]


class Changes:
    """Changes of a tree, each by its number."""

    def __init__(self, seed: int) -> None:
        self.random = random.Random(seed)

    def leaf(self, kind: int) -> Any:
        """A value of a type."""
        choose = self.random.choice
        if kind == 1:
            return []
        if kind in WIDTHS:
            numbers = NUMBERS if WIDTHS[kind] == 4 else LARGE if kind != 6 else [0, 1]
            return choose(numbers).to_bytes(WIDTHS[kind], 'big')
        if kind == 7:
            return choose(TEXTS).encode('utf-8')
        octets = self.random.getrandbits(160).to_bytes(20, 'big')
        return octets[:8 * self.random.randrange(3)] if kind == 4 else octets

    def change(self, items: List[Item], at: int, other: Item) -> None:
        item, what = items[at], self.random.randrange(10)
        if what == 0:
            del items[at]
        elif what == 1:
            items.insert(at, copied(item))
        elif what == 2:
            to = self.random.randrange(len(items))
            items[at], items[to] = items[to], items[at]
        elif what == 3:
            item[0] = self.random.choice(TAGS)
        elif what == 4:
            item[1] = self.random.randrange(1, 11)
            item[2] = self.leaf(item[1])
        elif what in (5, 6) and item[1] != 1:
            item[2] = self.leaf(item[1])
        elif what == 7:
            items.insert(at, copied(other))
        elif what == 8:
            kind = self.random.randrange(1, 11)
            items.insert(at, [self.random.choice(TAGS), kind, self.leaf(kind)])
        else:
            for _ in range(self.random.choice([1, 1, 1, 10, 58, 60, 62, 70])):
                items[at] = [self.random.choice(TAGS), 1, [items[at]]]

    def changed(self, tree: List[Item]) -> List[Item]:
        tree = [copied(item) for item in tree]
        for _ in range(self.random.randrange(1, 4)):
            below = [(items, at) for items, at in places(tree) if items is not tree]
            if below:
                items, at = self.random.choice(below)
                others, other = self.random.choice(below)
                self.change(items, at, others[other])
        return tree


# Values.

def leaves(value: Any, path: str = '') -> Iterator[Tuple[str, Any]]:
    """The values of a JSON that are no object and no list, by their paths."""
    if isinstance(value, (dict, list)):
        for name, part in value.items() if isinstance(value, dict) else enumerate(value):
            yield from leaves(part, '%s.%s' % (path, name) if path else str(name))
    else:
        yield path, value


def items_by_path(item: Any, path: str = '') -> Iterator[Tuple[str, Any]]:
    """The items of a tree below its root that are no structure, by their paths of tags."""
    counts: 'collections.Counter[str]' = collections.Counter()
    for part in item['value']:
        below = '%s%s.%d' % (path + '.' if path else '', part['tag'], counts[part['tag']])
        counts[part['tag']] += 1
        if isinstance(part['value'], list):
            yield from items_by_path(part, below)
        else:
            yield below, part


def shown(value: Any) -> bytes:
    """A value as kmip_value writes it as text."""
    return (json.dumps(value) if isinstance(value, (bool, int)) else str(value)).encode()


def spelled(digits: Any) -> Optional[bytes]:
    """The bytes that a string of hex digits stands for."""
    is_hex = isinstance(digits, str) and re.fullmatch('([0-9A-Fa-f]{2})*', digits)
    return bytes.fromhex(digits) if is_hex else None


def check_value(library: Library, line: bytes, path: str, text: bytes,
                octets: Optional[bytes]) -> None:
    if library.value(line, path, False) != text:
        found('another value at', path, line)
    if known(library.value(line, path, True)) != octets:
        found('other bytes at', path, line)


def check_values(library: Library, line: bytes, answer: Any) -> None:
    """The values of an answer, which is a tree where it has a tag; none of what is no object."""
    if not isinstance(answer, dict):
        pass
    elif 'tag' in answer:
        for path, item in items_by_path(answer) if isinstance(answer['value'], list) else []:
            has_bytes = item.get('type') in ('ByteString', 'BigInteger')
            octets = spelled(re.sub('^0x', '', item['value'])) if has_bytes else None
            check_value(library, line, path, shown(item['value']), octets)
    else:
        for path, value in leaves(answer):
            check_value(library, line, path, shown(value), spelled(value))
    for path in ('', 'answer', 'no_such', '0'):
        if known(library.value(line, path, False)) is not None:
            found('a value at', path, line)


def plain_name(tag: str) -> str:
    """The name of a member of a plain answer."""
    if tag.startswith('0x'):
        return tag
    parts = re.sub('(?<=[a-z0-9])(?=[A-Z])|(?<=[A-Z0-9])(?=[A-Z][a-z])', '_', tag)
    return re.sub('_+', '_', parts).lower()


def plain_of(item: Any) -> Any:
    """What a plain answer has for an item of a tree."""
    value = item['value']
    if not isinstance(value, list):
        return re.sub('^0x', '', value) if item.get('type') == 'BigInteger' else value
    members: Dict[str, List[Any]] = {}
    for part in value:
        members.setdefault(plain_name(part['tag']), []).append(plain_of(part))
    return {name: made[0] if len(made) == 1 else made for name, made in members.items()}


def has_empty_identifier(item: Any) -> bool:
    """Whether it is an empty Unique Identifier, or has one anywhere: a request with such a payload
    is refused."""
    if item == {'tag': 'UniqueIdentifier', 'type': 'TextString', 'value': ''}:
        return True
    return isinstance(item['value'], list) and any(map(has_empty_identifier, item['value']))


def check_payload(library: Library, asked: Operation, answer: Any, tree: List[Item]) -> None:
    """That the JSON of an answer is the payload of the response. One that is no structure is shown
    too, but no request has such a payload."""
    if answer.get('type', 'Structure') != 'Structure':
        return
    if answer['tag'] != 'ResponsePayload':
        found('another tag', asked, answer)
    again = asked._replace(payload=json.dumps({**answer, 'tag': 'RequestPayload'}).encode())
    request = library.request(again)
    if has_empty_identifier(answer):
        if request != GRAMMAR:
            found('a request with an empty identifier', again)
    elif not isinstance(request, bytes):
        found('no request of an answer', request, again)
    elif payload_of(parsed(request), REQUEST)[1:] != payload_of(tree, RESPONSE)[1:]:
        found('another payload', again, request.hex(), written(tree).hex())


def sole(tag: int, items: Any) -> Optional[Item]:
    """The one item with this tag of these, where there is one."""
    found_ones = [item for item in items if item[0] == tag] if isinstance(items, list) else []
    return found_ones[0] if len(found_ones) == 1 else None


def is_of_other_item(tree: List[Item]) -> bool:
    """Whether a response has one batch item, which is not that of the request with the ID."""
    message = tree[0] if tree and tree[0][0] == RESPONSE_MESSAGE else [0, 1, []]
    count = sole(BATCH_COUNT, (sole(RESPONSE_HEADER, message[2]) or [0, 1, []])[2])
    item = sole(BATCH_ITEM, message[2])
    if item is None or count is None or count[1:] != [2, b'\0\0\0\1']:
        return False
    tags = [part[0] for part in item[2]] if isinstance(item[2], list) else []
    if ITEM_ID in tags:
        return sole(ITEM_ID, item[2]) != [ITEM_ID, 8, ID]
    return OPERATION in tags or sole(STATUS, item[2]) != [STATUS, 5, b'\0\0\0\1']


def check_identified(asked: Operation, tree: List[Item], plain: Tuple[int, bytes],
                     identified: Tuple[int, bytes]) -> None:
    """That the answer to an operation with the ID is that of the same without one, or lost."""
    known = json.loads(plain[1])
    is_read = known.get('error') not in ('DeserializeError', 'ResponseReadError')
    if not is_read or not is_of_other_item(tree):
        if identified != plain:
            found('another answer with an ID', asked, written(tree).hex(), plain, identified)
    # (A failure of another operation is lost with and without.)
    elif identified[0] != 3 or identified != plain and json.loads(identified[1])['text'] != OTHER:
        found('an answer to another item', asked, written(tree).hex(), identified)


def try_tree(library: Library, call: Words, asked: Operation,
             tree: List[Item]) -> Iterator[Tuple[str, int]]:
    """The statuses of a response to a call of words, and to one of any operation."""
    response = written(tree)
    status, line = library.answer(call, response)
    yield 'words', status
    line_object = check_line(status, line)
    if status == 0:
        check_values(library, line, line_object['answer'])
    elif known(library.value(line, 'text', False)) is not None:
        found('a value of an error', call, response.hex())
    status, line = library.answer(asked, response)
    yield 'operation', status
    line_object = check_line(status, line)
    plain = library.answer(asked._replace(is_plain=True), response)
    if status == 0:
        check_payload(library, asked, line_object['answer'], tree)
        check_values(library, line, line_object['answer'])
        if check_line(*plain) != {'answer': plain_of(line_object['answer'])}:
            found('another plain answer', asked, line, plain)
    elif plain != (status, line):
        found('another plain error', asked, line, plain)
    identified = library.answer(asked._replace(item_id=ID), response)
    yield 'identified', identified[0]
    check_line(*identified)
    check_identified(asked, tree, (status, line), identified)


def try_trees(folder: str, seed: int, rounds: int) -> None:
    library, changes = Library(), Changes(seed)
    corpus = []
    for path in sorted(pathlib.Path(folder).glob('*.call')):
        asked = Operation(*path.with_suffix('.operation').read_bytes().split(b'\n'))
        tree = parsed(path.with_suffix('.response').read_bytes())
        corpus.append((path.read_text(encoding='utf-8').split('\n'), asked, tree))
    statuses: 'collections.Counter[Tuple[str, int]]' = collections.Counter()
    for _ in range(rounds):
        call, asked, tree = changes.random.choice(corpus)
        statuses.update(try_tree(library, call, asked, changes.changed(tree)))
    print('trees:', dict(sorted(statuses.items())))


def main() -> None:
    if sys.argv[1] == '--lines':
        check_lines(sys.argv[2])
    else:
        try_trees(sys.argv[1], int(sys.argv[2]), int(sys.argv[3]))


if __name__ == '__main__':
    main()
