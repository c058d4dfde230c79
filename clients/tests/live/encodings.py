"""Messages through kmip_ttlv, as bytes, JSON and XML. It prints its checks.

    encodings.py KMIP_TTLV FOLDER    those of this folder, ../messages, which were written by hand
    encodings.py KMIP_TTLV pykmip    those of PyKMIP, of all its operations, to both and back

A file of the folder has what the message is, its bytes in hex, its JSON and its XML, with an empty
line between two; lines may begin with spaces, which are no part of them.
"""
import pathlib
import subprocess
import sys


def check(holds, what):
    print('%s shell: %s' % ('ok     ' if holds else 'FAILED ', what))


def shown(wanted, found):
    """Where two texts differ."""
    at = next((at for at, (one, other) in enumerate(zip(wanted, found)) if one != other), 0)
    part = slice(max(0, at - 20), at + 60)
    print('        %r in place of %r' % (found[part], wanted[part]))


def through(program, words, given):
    """What the program writes for its input; or what it says, where it refuses it."""
    run = subprocess.run([program, *words], input=given, capture_output=True, check=False,
                         timeout=60)
    return (run.stdout if run.returncode == 0 else run.stderr).decode()


def same(found, wanted, what):
    check(found == wanted + '\n', what)
    if found != wanted + '\n':
        shown(wanted, found)


def by_hand(program, folder):
    paths = sorted(pathlib.Path(folder).iterdir())
    check(len(paths) == 20, 'there are twenty messages')
    for path in paths:
        _, bytes_, json, xml = path.read_text(encoding='utf-8').split('\n\n')
        joined = [''.join(map(str.strip, text.splitlines())) for text in (json, xml)]
        name = path.name.replace('_', ' ')
        digits = bytes_.encode()
        same(through(program, ['decode'], digits), joined[0], name + ' as JSON')
        same(through(program, ['decode', 'xml'], digits), joined[1], name + ' as XML')
        for form, text in ('JSON', json), ('XML', xml):
            found = through(program, ['encode'], text.encode())
            same(found, ''.join(bytes_.split()), '%s of %s' % (name, form))


def is_unchanged(program, message):
    """Whether JSON and back, and XML and back, give the message."""
    for words in ['decode'], ['decode', 'xml']:
        text = through(program, words, message)
        back = through(program, ['encode'], text.encode())
        if back != message.hex().upper() + '\n':
            print('        %s: %s' % (message.hex().upper(), text[:200]))
            return False
    return True


def of_pykmip(program):
    import pykmip
    operations = set()
    for name, made in pykmip.messages():
        operations.add(name.partition(',')[0])
        check(made and all([is_unchanged(program, message) for message in made]),
              '%d messages of %s through JSON and XML and back are unchanged' % (len(made), name))
    # (and `failures`)
    check(len(operations) == 29 + 1, 'they are of twenty-nine operations')


if __name__ == '__main__':
    if sys.argv[2] == 'pykmip':
        of_pykmip(sys.argv[1])
    else:
        by_hand(*sys.argv[1:])
