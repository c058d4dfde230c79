#!/usr/bin/env python3
"""Runs a command and judges what rt says of each must-fail edit.

usage: refusals.py COMMAND [WORD..]      as `tools/refusals.py rt ci`, at the top of the repository

What the command writes to its standard output goes to that of this one, line by line as it comes,
unchanged. An edit counts where rt says that the prover refused it, and the first thing that the
prover complained of is no name. It does not count where

- it is a BAD EDIT, NOT TRIED or NOT REFUSED;
- it is refused only because a proof file names what it took away. rt says so itself, but where
  the prover broke the line of its complaint before the words that rt looks for;
- it is refused only at a limit of the prover;
- rt gives no reason;
- rt says nothing of it, though the command ended well: an edit in crates/NAME/must-fail/ of any
  crate; or, where names of crates follow `rt ci` or `rt must-fail`, of these crates and of those
  of which rt told another edit.

At the end it tells on standard error which edits don't count, and why, and how many do. Its status
is that of the command, or 1 where the command ended well and an edit does not count, or 2 where no
command is given. Of a command that a signal ended it is 128 and the signal's number. SIGTERM and
SIGHUP go to the command; an interrupt from a terminal reaches both, and the command ends by it.
"""
import glob
import os
import re
import signal
import subprocess
import sys

TOLD = re.compile(r'(?:rt: )?must-fail ([a-z0-9_]+/[^/:\s]+\.edit): (.*)')
MISPLACED = re.compile(r'(?:rt: )?(\S*must-fail/\S+): (BAD EDIT: .*)')
REFUSED = re.compile(r'refused, as it must be(?:: (.*)| \((.*))?')
# The front of "record `R` has no field `f`". The prover breaks a long line before `has no field`,
# and rt shows the first line alone.
A_NAME = re.compile(r': error: `[^`]*`: record `')


def why_not(said):
    """Why an edit of which rt said this does not count, or None where the contracts refuse it."""
    refused = REFUSED.fullmatch(said)
    if not refused:
        return said
    reason, only = refused.groups()
    if only:
        return f'refused {only}'
    if not reason:
        return 'refused, and rt gives no reason'
    if A_NAME.search(reason):
        return f'refused only because a proof file names what the edit took away: {reason}'
    return None


def judged(line, verdicts):
    """Adds the verdict that the line has, if any: by the edit, why it does not count, or None."""
    told = TOLD.fullmatch(line)
    if told:
        verdicts[told[1]] = why_not(told[2])
        return
    misplaced = MISPLACED.fullmatch(line)
    if misplaced:
        verdicts[misplaced[1]] = misplaced[2]


def unsaid(command, verdicts):
    """The edits of which rt should have said something, and has not."""
    named = {word for word in command[2:] if not word.startswith('-')}
    wanted = named | {name.split('/')[0] for name in verdicts}
    for path in sorted(glob.glob('crates/*/must-fail/*.edit')):
        _, crate, _, edit = path.split('/')
        name = f'{crate}/{edit}'
        if name not in verdicts and (not named or crate in wanted):
            yield name


def passed_on(run, verdicts):
    """Passes each line of the command's output on as it comes, and judges it. False where nobody
    reads on."""
    for line in run.stdout:
        judged(line.decode(errors='replace').rstrip('\r\n'), verdicts)
        try:
            sys.stdout.buffer.write(line)
            sys.stdout.buffer.flush()
        except BrokenPipeError:
            return False
    return True


def status_of(run):
    status = run.wait()
    return 128 - status if status < 0 else status


def run_it(command, verdicts):
    """Runs the command to its end, and returns its status."""
    run = subprocess.Popen(command, stdout=subprocess.PIPE)
    for number in (signal.SIGTERM, signal.SIGHUP):
        signal.signal(number, lambda number, _: run.send_signal(number))
    signal.signal(signal.SIGINT, signal.SIG_IGN)
    try:
        is_read = passed_on(run, verdicts)
    except OSError:
        run.terminate()
        run.wait()
        raise
    if not is_read:
        # as for the command itself, were it written to whoever has left
        run.stdout.close()
        os.dup2(os.open(os.devnull, os.O_WRONLY), sys.stdout.fileno())
        run.wait()
        return 128 + signal.SIGPIPE
    return status_of(run)


def complain(text):
    print(f'refusals.py: {text}', file=sys.stderr)


def main(command):
    if command in ([], ['--help']):
        print(__doc__.strip(), file=sys.stdout if command else sys.stderr)
        return 0 if command else 2
    verdicts = {}
    try:
        status = run_it(command, verdicts)
    except OSError as error:
        complain(f'{" ".join(command)}: {error}')
        return 1
    if status == 0:
        verdicts.update((name, 'rt said nothing of it') for name in unsaid(command, verdicts))
    wrong = [name for name in verdicts if verdicts[name]]
    for name in wrong:
        complain(f'{name}: {verdicts[name]}')
    right = len(verdicts) - len(wrong)
    complain(f'{right} of {len(verdicts)} must-fail edits are refused by the contracts')
    return status or int(bool(wrong))


if __name__ == '__main__':
    sys.exit(main(sys.argv[1:]))
