#!/usr/bin/env python3
"""Writes the grammar of calls into the clients and their documents.

    { kmip_call --grammar; kmip_call --operations; } | clients/grammar.py [--check]

With --check it writes nothing and says which files differ from it; the status is 1 where one does.

What is written stands between two lines, `clients/grammar.py: NAME` and `clients/grammar.py: end`,
each in a comment of the file's language. All of it comes from the program's own two tables:
crates/kmip_request_words/src/grammar.rt, as JSON, and crates/kmip_operation_words/src/table.rt, as
a form for each call.
"""
import json
import os
import re
import sys
import textwrap

TOP = os.path.dirname(os.path.dirname(os.path.abspath(__file__)))
# The types of values in Python, by the kinds of the table; the others are texts, and names of KMIP.
PYTHON = {'Int': 'NUMBER', 'Seconds': 'NUMBER', 'Hex': 'BYTES', 'Request': 'BYTES', 'Uses': 'NAMES', 'Flag': 'FLAG'}
# What the kinds that have no names are called in a manual.
SAID = {'Identifier': 'an identifier', 'Text': 'a text', 'Int': 'a number', 'Seconds': 'seconds since 1970-01-01 UTC',
        'Flag': 'no value', 'Hex': 'bytes in hex digits'}
# The types in Python of what stands in a form, as a word or as an option's value; others are texts.
FORM_TYPES = {'DATA': 'BYTES', 'MAC': 'BYTES', 'SIGNATURE': 'BYTES', 'HEX': 'BYTES',
              'BITS': 'NUMBER', 'COUNT': 'NUMBER', 'N': 'NUMBER', 'SECONDS': 'NUMBER',
              'USES': 'NAMES', 'true|false': 'TRUTH'}


class Form:
    """A call of the table of operations, as `derive-key ID METHOD [also=ID] length=N`."""

    def __init__(self, line):
        self.name, *words = line.replace('[', '').replace(']', '').split()
        self.has_more = any(word.endswith('..') for word in words)
        self.words = [word for word in words if '=' not in word and not word.endswith('..')]
        # What the value of each option is, as `{'also': 'ID', 'length': 'N'}`.
        self.options = dict(word.split('=') for word in words if '=' in word)


class Grammar:
    """The two tables, as the program prints them."""

    def __init__(self, table, lines):
        # (a call's line of help is indented)
        self.operations = [Form(line) for line in lines if line.strip() and line[0] != ' ']
        self.all, self.attributes, self.names = table['calls'], table['attributes'], table['names']
        # Those that are words alone, and no JSON.
        self.calls = [call for call in self.all if call['rest'] != 'Nothing']

    def words(self, call):
        """The words of a call that are no attributes."""
        return [word for word in call['words'] if word['kind'] != 'Attribute']

    def takes_attributes(self, call):
        return call['rest'] == 'Attributes' or any(word['kind'] == 'Attribute' for word in call['words'])

    def options(self, call):
        """The options that may stand after the words of a call, attributes too."""
        return (self.attributes if self.takes_attributes(call) else []) + call['options']


def bare(option):
    return option['name'].rstrip('=')


def filled(front, items, last, width=100, between=', '):
    """Items in lines of at most so many characters, the later ones indented as the front is wide."""
    # (a space within an item is none to break a line at)
    text = textwrap.wrap(between.join(items).replace(': ', ':\xa0'), width - len(front) - len(last),
                         break_long_words=False, break_on_hyphens=False)
    return [(front if at == 0 else ' ' * len(front)) + line.replace('\xa0', ' ')
            + (last if at == len(text) - 1 else '') for at, line in enumerate(text)]


def python_row(name, kinds):
    return '    %r: (%s%s),' % (name, ', '.join(kinds), ',' if len(kinds) == 1 else '')


def python_calls(grammar):
    def kind(word):
        return PYTHON.get(word['kind'], 'TEXT')
    lines = ['CALLS: Dict[str, Tuple[Kind, ...]] = {']
    for call in grammar.calls:
        lines.append(python_row(call['name'], [kind(word) for word in grammar.words(call)]))
    options = [option for call in grammar.calls for option in grammar.options(call)]
    kinds = ['%r: %s' % (bare(option), kind(option)) for option in options if kind(option) != 'TEXT']
    more = [repr(call['name']) for call in grammar.calls if call['rest'] == 'Names']
    return [*lines, '}', 'MORE_TEXTS = {%s}' % ', '.join(more), *filled('OPTIONS = {', dict.fromkeys(kinds), '}')]


def python_operations(grammar):
    lines = ['TABLE: Dict[str, Tuple[Kind, ...]] = {']
    kinds = ['**OPTIONS']
    for form in grammar.operations:
        lines.append(python_row(form.name, [FORM_TYPES.get(word, 'TEXT') for word in form.words]))
        kinds += ['%r: %s' % (option, FORM_TYPES[value])
                  for option, value in form.options.items() if value in FORM_TYPES]
    more = ['*MORE_TEXTS', *(repr(form.name) for form in grammar.operations if form.has_more)]
    return [*lines, '}', 'MORE = {%s}' % ', '.join(more), 'KINDS: Dict[str, Kind] = {',
            *filled('    ', dict.fromkeys(kinds), '}')]


def python_uses(grammar):
    names = textwrap.wrap(', '.join(map(repr, grammar.names['Uses'])), 95)
    return ['USES = {name: 1 << at for at, name in enumerate((', *('    ' + name for name in names[:-1]),
            '    %s))}' % names[-1]]


def rust_row(name, count, places):
    return '    ("%s", %s, &[%s]),' % (name, count, ', '.join(map(str, places)))


def rust_calls(grammar):
    def row(call):
        kinds = [word['kind'] for word in grammar.words(call)]
        places = [at for at, kind in enumerate(kinds) if kind in ('Hex', 'Request')]
        # Behind its words a call has options, or names that are no options, or options in the place of its words.
        count = {'Names': 'usize::MAX', 'Attributes': 0}.get(call['rest'], len(kinds))
        return rust_row(call['name'], count, places)
    return ['const CALLS: [Call; %d] = [' % len(grammar.calls), *map(row, grammar.calls), '];']


def rust_operations(grammar):
    def row(form):
        places = [at for at, word in enumerate(form.words) if FORM_TYPES.get(word) == 'BYTES']
        return rust_row(form.name, 'usize::MAX' if form.has_more else len(form.words), places)
    return ['const TABLE: [Call; %d] = [' % len(grammar.operations),
            *map(row, grammar.operations), '];']


def shell_calls(grammar):
    lines = ["    local attributes=' %s '" % ' '.join(map(bare, grammar.attributes)), "    KMIP_PLAIN=1 KMIP_OPTIONS=''",
             '    case $1 in']
    for call in grammar.calls:
        own = ' '.join(map(bare, call['options']))
        options = "' %s '" % own if own else ''
        if grammar.takes_attributes(call):
            options = '$attributes' + ("'%s '" % own if own else '')
        if options:
            plain = len(grammar.words(call))
            lines.append('    %s) %sKMIP_OPTIONS=%s ;;' % (call['name'], 'KMIP_PLAIN=%d ' % plain if plain != 1 else '', options))
    return lines + ['    esac']


def shell_operations(grammar):
    alike = {}
    for form in grammar.operations:
        plain = len(form.words) if form.options else 1
        alike.setdefault((plain, *form.options), []).append(form.name)
    lines = ['    case $1 in']
    for (plain, *options), names in alike.items():
        front = '    %s) ' % ' | '.join(names)
        if options:
            front += '%sKMIP_OPTIONS=" ' % ('KMIP_PLAIN=%d ' % plain if plain != 1 else '')
            *first, last = filled(front, options, ' " ;;', 118, ' ')
            lines += [*(line + ' \\' for line in first), last]
        else:
            lines.append(front + ';;')
    return [*lines, '    *) return 1 ;;', '    esac']


def completion_calls(grammar):
    lines = filled('_kmip_calls=(', [one['name'] for one in grammar.all], ')', 120, ' ')
    # how many words stand before the options of a call, and which options they are
    lines.append('declare -gA _kmip_plain=(')
    lines += filled('    ', ['[%s]=%d' % (one['name'], len(grammar.words(one))) for one in grammar.calls], '', 120, ' ')
    lines += [')', 'declare -gA _kmip_options=(']
    for call in grammar.calls:
        if grammar.options(call):
            lines.append("    [%s]='%s'" % (call['name'], ' '.join(option['name'] for option in grammar.options(call))))
    # of which kind a word or the value of an option is, where it is one of several names
    lines += [')', 'declare -gA _kmip_kinds=(']
    for call in grammar.calls:
        known = ['[%s.%d]=%s' % (call['name'], at, word['kind']) for at, word in enumerate(grammar.words(call), 1)
                 if word['kind'] in grammar.names]
        known += ['[%s.%s]=%s' % (call['name'], option['name'], option['kind']) for option in grammar.options(call)
                  if option['kind'] in grammar.names]
        if known:
            lines += filled('    ', known, '', 120, ' ')
    lines += [')', 'declare -gA _kmip_names=(']
    for kind, names in grammar.names.items():
        if kind != 'Attribute':
            lines.append("    [%s]='%s'" % (kind, ' '.join(names)))
    return lines + [')']


def completion_operations(grammar):
    kinds = {'USES': 'Uses', 'true|false': 'Truth'}
    names = [form.name for form in grammar.operations]
    plain = ['[%s]=%d' % (form.name, len(form.words)) for form in grammar.operations]
    known = ['[%s.%s=]=%s' % (form.name, option, kinds[value]) for form in grammar.operations
             for option, value in form.options.items() if value in kinds]
    options = ["    [%s]='%s='" % (form.name, '= '.join(form.options))
               for form in grammar.operations if form.options]
    return [*filled('_kmip_table=(', names, ')', 120, ' '),
            *filled('_kmip_plain+=(', plain, ')', 120, ' '), '_kmip_options+=(', *options, ')',
            *filled('_kmip_kinds+=(', known, ')', 120, ' '), "_kmip_names+=([Truth]='true false')"]


def sentence(text):
    return text[:1].upper() + text[1:] + '.'


def man_calls(grammar):
    lines = ['.Bl -tag -width Ds']
    for call in grammar.all:
        words = ['Ar %s' % word['name'].lower() for word in call['words']]
        options = []
        for option in call['options']:
            made = 'Cm %s' % option['name'] + (' Ns Ar value' if option['name'].endswith('=') else '')
            options.append(made if option['is_needed'] else 'Oo %s Oc' % made)
        if call['rest'] == 'Nothing':
            words[1:1] = options
            options = []
        rest = {'Names': ['Oo Ar name ... Oc'], 'Attributes': [', Cm locate Oo Cm where Oc Oo Ar attribute ... Oc']}
        lines.append('.It ' + ' '.join(['Cm ' + call['name'], *words, *rest.get(call['rest'], []), *options]))
        lines += textwrap.wrap(sentence(call['help']), 80)
    return lines + ['.El']


def values_of(grammar):
    """Each option with what its value is, by the calls that take it."""
    rows = {}
    for call in grammar.all:
        for option in call['options']:
            rows.setdefault((option['name'], option['kind']), []).append(call['name'])
    for option in grammar.attributes:
        rows.setdefault((option['name'], option['kind']), []).append('an attribute')
    for (name, kind), calls in rows.items():
        yield name, calls, grammar.names.get(kind), SAID.get(kind)


def man_values(grammar):
    lines = ['.Bl -tag -width Ds']
    for name, calls, names, said in values_of(grammar):
        lines += ['.It Cm %s Pq %s' % (name, ', '.join(calls)), *textwrap.wrap(sentence(', '.join(names) if names else said), 80)]
    return [*lines, '.El']


def page_calls(grammar):
    return ['| CALL | what it asks for |', '|---|---|',
            *('| `%s` | %s |' % (call['form'].replace(', or ', '`, or `'), call['help']) for call in grammar.all)]


# Each file, with the block that it has of each name.
BLOCKS = {
    'clients/python/metsuwan/calls.py':
        {'calls': python_calls, 'operations': python_operations, 'uses': python_uses},
    'clients/rust/src/word.rs': {'calls': rust_calls, 'operations': rust_operations},
    'clients/shell/kmip.sh': {'calls': shell_calls, 'operations': shell_operations},
    'clients/shell/completion.bash':
        {'calls': completion_calls, 'operations': completion_operations},
    'clients/man/kmip_call.1': {'calls': man_calls, 'values': man_values},
    'docs/CALL.md': {'calls': page_calls},
}


def replaced(text, name, lines, path):
    """The text with these lines in the block of this name."""
    block = re.compile(r'^(.*clients/grammar\.py: %s\b.*\n)(?:.*\n)*?(.*clients/grammar\.py: end\b.*\n)' % name, re.M)
    made, count = block.subn(lambda found: found[1] + ''.join(line + '\n' for line in lines) + found[2], text)
    if count != 1:
        sys.exit('grammar.py: %s has %d blocks of the name %s, and not one' % (path, count, name))
    return made


def main():
    check = sys.argv[1:] == ['--check']
    if sys.argv[1:] and not check:
        sys.exit(__doc__.strip())
    grammar, differ = Grammar(json.loads(sys.stdin.readline()), sys.stdin), False
    if not grammar.operations:
        sys.exit('grammar.py: behind the first line are no forms, as kmip_call --operations has')
    for path, blocks in BLOCKS.items():
        with open(os.path.join(TOP, path), encoding='utf-8') as file:
            text = file.read()
        made = text
        for name, lines in blocks.items():
            made = replaced(made, name, lines(grammar), path)
        if made == text:
            continue
        differ = True
        if check:
            print('%s is not as clients/grammar.py writes it' % path)
        else:
            with open(os.path.join(TOP, path), 'w', encoding='utf-8') as file:
                file.write(made)
    sys.exit(1 if check and differ else 0)


if __name__ == '__main__':
    main()
