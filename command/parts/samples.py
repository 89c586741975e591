"""samples: what the second implementation, or a person, wrote down beforehand"""

import os

from run import Failure, expect

SAMPLES = [
    (['time', 'this-year.tsc', '-731'], 'stamps.txt', 1, 'time'),
    (['time', '--hex', '--seconds', 'this-year.tsc', '-731'], 'messages.txt', 1, 'messages'),
    (['describe', '--seconds', 'this-year.tsc', '-731'], None, 0, 'describe'),
    (['compare', 'last-year.tsc', 'this-year.tsc', '-731'], 'stamps.txt', 1, 'compare'),
]

# Galileo's sample without its last three rows and with them: not a successor, the horizon, and by how much a stamp beyond it differs.
GALILEO = [b'succeeds\tno\tfurther\t32', b'horizon\t897979999']
DIFFERS = [b'differ', b'-999141674']

# Table A cut to its first partition and segment, and whole.
TABLE_A = [b'succeeds\tyes', b'horizon\t500']

# Of Galileo's description: row 5 steps back by so much, and how many rows there are and step back.
STEP = b'\tback\t183333509894781'
ENDS = [b'segments\t35', b'steps back\t10']


def contents(*path):
    with open(os.path.join(*path), 'rb') as file:
        return file.read()


def stored_run(sclk, name):
    """A run of command/runs, in its data/; its lines of output."""
    folder = os.path.join(sclk.root, 'command/runs', name)
    words = contents(folder, 'args').decode().splitlines()
    run = sclk.run(*words, given=contents(folder, 'stdin'), folder=os.path.join(folder, 'data'))
    return expect(run, 1, contents(folder, 'stdout'), b'').output.splitlines()


def by_hand(lines, wanted):
    for line in wanted:
        if line not in lines:
            raise Failure('no line %r in %r' % (line, lines[:5]))


def test(sclk):
    samples = os.path.join(sclk.root, 'samples')
    for words, given, status, answers in SAMPLES:
        given = contents(samples, given) if given else b''
        expect(sclk.run(*words, given=given, folder=samples), status, contents(samples, 'answers', answers), b'')
    # What README shows is what is printed.
    shown = b''.join(b'    ' + line + b'\n' for line in contents(samples, 'answers', 'compare').splitlines())
    if shown not in contents(sclk.root, 'README.md'):
        raise Failure('README does not show what its first command prints')
    for name in ('messages', 'exchanged'):
        stored_run(sclk, name)
    by_hand(stored_run(sclk, 'table_a')[:2], TABLE_A)
    lines = stored_run(sclk, 'galileo')
    by_hand(lines[:2], GALILEO)
    stamps = contents(sclk.root, 'command/runs/galileo/stdin').splitlines()
    answer = lines[2 + stamps.index(b'4/00123350:00:0:0')].split(b'\t')
    by_hand([answer[0], answer[-1]], DIFFERS)
    description = sclk.run('describe', sclk.galileo, '-77').output.splitlines()
    by_hand(description, ENDS)
    if not [line for line in description if line.startswith(b'segment\t5\t') and line.endswith(STEP)]:
        raise Failure('row 5 does not step back as it should')
