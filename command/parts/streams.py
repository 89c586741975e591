"""streams: standard input and output that are closed, full, cut anywhere; exit statuses"""

import os
import random
import subprocess

from run import Failure, Run, expect

GOOD = b'1/0:0:0:0\n1/2.3.4\n'

INPUT = b'sclk: standard input: ..'
OUTPUT = b'sclk: standard output: ..'


def closed(sclk):
    k = sclk.galileo
    asked = [['time', k, '77'], ['time', '--hex', k, '77'], ['stamp', k, '77'], ['count', k, '77'], ['compare', k, k, '77']]
    for words in asked:
        for input_ in ('<&-', '</'):
            run = expect(sclk.shell(input_, *words), 4, None, INPUT)
            # Of two tables something is said before the input is read.
            if words[0] != 'compare' and run.output:
                raise Failure(str(run))
        for output in ('>&-', '>/dev/full'):
            expect(sclk.shell(output, *words, given=GOOD), 4, b'', OUTPUT)
    for output in ('>&-', '>/dev/full'):
        expect(sclk.shell(output, 'describe', k, '77'), 4, b'', OUTPUT)
        expect(sclk.shell(output, '--help'), 4, b'', OUTPUT)
        expect(sclk.shell(output, 'compare', k, k, '77'), 4, b'', OUTPUT)
        # Nothing is written, so nothing fails.
        expect(sclk.shell(output, 'time', k, '77'), 0, b'', b'')
        expect(sclk.shell(output, 'time', k, '78', given=GOOD), 3, b'', b'sclk: ..')
        expect(sclk.shell(output, 'bogus', given=GOOD), 2, b'', sclk.usage)
    # describe and help read no input.
    wanted = sclk.run('describe', k, '77')
    for input_ in ('<&-', '</'):
        expect(sclk.shell(input_, 'describe', k, '77'), 0, wanted.output, b'')
        expect(sclk.shell(input_, '--help'), 0, sclk.help, b'')
        expect(sclk.shell(input_, 'bogus'), 2, b'', sclk.usage)
    # A kernel is then opened as one of these numbers, and closed again.
    expect(sclk.shell('<&- >&-', 'time', k, '77'), 4, b'', INPUT)
    expect(sclk.shell('<&- >&- 2>&-', 'time', k, '77'), 4, b'', b'')
    expect(sclk.shell('2>&-', 'time', k, '78'), 3, b'', b'')
    expect(sclk.shell('2>&-', 'bogus'), 2, b'', b'')
    expect(sclk.shell('2>/dev/full', 'time', 'none', '77'), 4, b'', b'')
    expect(sclk.shell('2>&-', 'time', k, '77', given=GOOD), 0, sclk.run('time', k, '77', given=GOOD).output, b'')
    expect(sclk.shell('>&- 2>&-', 'describe', '/', '77'), 4, b'', b'')


def slowly(sclk, words, pieces):
    """A run whose input comes in these pieces, each once the one before it was taken."""
    pipe = subprocess.PIPE
    process = sclk.start(sclk.program, words, stdin=pipe, stdout=pipe, stderr=pipe)
    for piece in pieces:
        os.write(process.stdin.fileno(), piece)
    output, errors = process.communicate()
    return Run(words, process.returncode, output, errors)


def cut(sclk):
    """Input that is cut anywhere has the same answers."""
    k = sclk.galileo
    chosen = random.Random(sclk.seed)
    given = b'1/0:0:0:0\r\n\n\r\r\n1/2.3.4\nx\n' + b'9' * 97 + b'\n' + b' 2/ 7 \r\n4/1' + b'\r'
    hexed = b'312f300003\n\n0a\n' + b'0' * 4_001 + b'\nFf\r\n' + b'ab' * 2_000 + b'\n01'
    for words, text in ((['time', k, '77'], given), (['compare', k, k, '77'], given), (['stamp', k, '77'], b'5\n\n-1\n007\n12345678901234567890123\n8'), (['count', '--seconds', k, '77'], b'-322875915\n.5\n1.\n-3.14159265358979\n'), (['time', '--hex', k, '77'], hexed)):
        wanted = sclk.run(*words, given=text)
        expect(slowly(sclk, words, [text[i:i + 1] for i in range(len(text))]), wanted.status, wanted.output, b'')
        long = text * (300_000 // len(text))
        wanted = sclk.run(*words, given=long)
        pieces, at = [], 0
        while at < len(long):
            size = chosen.choice((1, 2, 97, 4_000, 4_096, 65_535, 65_536))
            pieces.append(long[at:at + size])
            at += size
        # What the answers wait for is read beside the writing.
        expect(gathered(sclk, words, pieces), wanted.status, wanted.output, b'')


def gathered(sclk, words, pieces):
    """A run whose input comes in pieces, with an output of any length."""
    out = os.path.join(sclk.folder, 'output')
    with open(out, 'wb') as output:
        process = sclk.start(sclk.program, words, stdin=subprocess.PIPE, stdout=output, stderr=subprocess.PIPE)
        for piece in pieces:
            while piece:
                piece = piece[os.write(process.stdin.fileno(), piece):]
        _, errors = process.communicate()
    with open(out, 'rb') as output:
        return Run(words, process.returncode, output.read(), errors)


def statuses(sclk):
    """0, 1, and input with and without a last byte 10."""
    k = sclk.galileo
    one = sclk.run('time', k, '77', given=b'1/0:0:0:0\n')
    expect(one, 0, None, b'')
    if one.output.count(b'\n') != 1 or one.output.count(b'\t') != 2:
        raise Failure(str(one))
    for given in (b'1/0:0:0:0', b'1/0:0:0:0\r\n', b'1/0:0:0:0\r'):
        expect(sclk.run('time', k, '77', given=given), 0, one.output, b'')
    for words in (['time', k], ['time', '--hex', k], ['stamp', k], ['count', k], ['count', '--seconds', k]):
        expect(sclk.run(*words, '77'), 0, b'', b'')
    tables = expect(sclk.run('compare', k, k, '77'), 0, None, b'')
    missing = b'refused\t6\t-\tthe first field is missing\n'
    for given in (b'\n', b'\r\n', b'\r'):
        expect(sclk.run('time', k, '77', given=given), 1, missing, b'')
        expect(sclk.run('compare', k, k, '77', given=given), 1, tables.output + b'same\t' + missing, b'')
    expect(sclk.run('time', k, '77', given=b'1/0:0:0:0\n\n1/0:0:0:0\n'), 1, one.output + missing + one.output, b'')
    same = b'same\t' + b'\t'.join(one.output.split(b'\t')[:2]) + b'\n'
    expect(sclk.run('compare', k, k, '77', given=b'1/0:0:0:0\n1/0:0:0:0'), 0, tables.output + same + same, b'')
    # A reader that goes away ends the command, by a write that fails.
    gone = sclk.run('-c', '"$0" time "$1" 77 | head -n 1 >/dev/null', sclk.program[0], k, given=GOOD * 200_000, program=['sh'])
    expect(gone, 0, b'', None)


def test(sclk):
    statuses(sclk)
    closed(sclk)
    cut(sclk)
