"""The inline hints of Rattle's sources, put back into the module of a trial run, which has none of them.

A trial run gives each function the same attributes. A proved build inlines what `#[inline(always)]` says, and keeps out
of line what `#[inline(never)]` and `#[cold]` say; without that a call of the client takes a fifth more instructions.
"""
import os
import re

ATTRIBUTE = re.compile(r'#\[(inline\(always\)|inline\(never\)|inline|cold)\]')
FUNCTION = re.compile(r'(?:pub(?:\([^)]*\))? )?(?:const )?(?:unsafe )?(?:extern "C" )?fn (\w+)')
HOLDER = re.compile(r'(?:unsafe )?(?:impl|trait|pub trait)\b')
BASE = 'nounwind "probe-stack"="inline-asm" "stack-probe-size"="3072" "target-cpu"="x86-64-v2"'


def module_of(crate, source, path):
    """The path of a source file's module, as it begins the names of its functions."""
    place = os.path.relpath(path, source)[:-3].split('/')
    if place[-1] in ('lib', 'mod', 'main'):
        place = place[:-1]
    return '::'.join([crate] + place) + '::'


def hints_in(path):
    """The functions of a file in order: the line of the `impl` or trait around each, its name and its attributes."""
    found, attributes, holder = [], set(), ''
    with open(path, encoding='utf-8') as lines:
        for line in lines:
            text = line.strip()
            if HOLDER.match(line):
                holder = text
            elif line.startswith('}'):
                holder = ''
            attribute, function = ATTRIBUTE.match(text), FUNCTION.match(text)
            if attribute:
                attributes.add(attribute.group(1))
            if function:
                found.append((holder, function.group(1), frozenset(attributes)))
                attributes = set()
    return found


def hints_of(sources):
    """By module and function: each `impl` or trait that has it, with its attributes. SOURCES are crates and their src/."""
    table = {}
    for crate, source in sources:
        for folder, _, names in sorted(os.walk(source)):
            for name in sorted(names):
                if name.endswith('.rt'):
                    path = os.path.join(folder, name)
                    for holder, function, attributes in hints_in(path):
                        table.setdefault((module_of(crate, source, path), function), []).append((holder, attributes))
    return table


def hint_for(table, name):
    """The attributes of a function of the module, by its name there."""
    if re.match(r'core::fmt::basic_types::\w*Display::fmt', name):
        return frozenset({'inline(always)'})
    parts = re.sub(r'::<.*$', '', name).split('::')
    for at in range(len(parts) - 1, 0, -1):
        found = table.get(('::'.join(parts[:at]) + '::', parts[-1]))
        if found:
            # several impls of one file: that whose words stand in the name, as Vec and Drop in VecDrop
            holder = parts[at] if at < len(parts) - 1 else ''
            return max(found, key=lambda one: sum(len(word) for word in set(re.findall(r'[A-Z]\w+', one[0]))
                                                 if word in holder))[1]
    return frozenset()


def words_of(attributes):
    words = [('alwaysinline', 'inline(always)' in attributes), ('noinline', attributes & {'inline(never)', 'cold'}),
             ('cold', 'cold' in attributes), ('inlinehint', 'inline' in attributes)]
    return ' '.join([word for word, is_so in words if is_so] + [BASE])


def with_hints(lines, sources):
    """The lines of a module, in which each function has the attributes of its source."""
    table, sets = hints_of(sources), {}
    for line in lines:
        if line.startswith('define internal'):
            name = re.search(r'@"([^"]*)"', line) or re.search(r'@([\w.]+)', line)
            if not name.group(1).startswith('rattle-'):
                attributes = hint_for(table, name.group(1))
                number = sets.setdefault(attributes, 100 + len(sets))
                line = re.sub(r'#\d+ \{$', '#%d {' % number, line.rstrip('\n')) + '\n'
        yield line
    for attributes, number in sets.items():
        yield 'attributes #%d = { %s }\n' % (number, words_of(attributes))
