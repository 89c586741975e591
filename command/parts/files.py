"""files: none, a folder, too large, a pipe; kernels that are refused"""

import os
import threading

from kernels import largest, padded, table
from run import expect

LARGEST = 4_194_304

GIVEN = b'1/0:0:0:0\n1/2.3.4\nx\n'

# What is done to a good kernel, and the refusal that it then has (Galileo's, clock 77).
REFUSED = [
    (b'KPL/SCLK', b'KPL/CLKS', b'18\t-\tthe first line is not KPL/SCLK'),
    (b'KPL/SCLK\n', b'', b'18\t-\tthe first line is not KPL/SCLK'),
    (b'SCLK01_N_FIELDS_77 ', b'SCLK01_N_FIELDS_78 ', b"19\t-\tthe text is not of a kernel's form"),
    (b'( 4   ', b'( x   ', b"19\t-\tthe text is not of a kernel's form"),
    (b'6.0666628073000E+01', b'6.0666628073000E-14', b'20\t-\ta number that is not exact in its unit'),
    (b'16777215 91 10 8', b'16777215 91 10 0', b'1\t-\tthe layout breaks its rules'),
    (b'7.2800001000000E+07', b'1.4000000000000E+08', b'2\t2\tthe partitions break their rules'),
    (b'1.2365600000000E+06', b'1.2365520000000E+06', b'3\t3\tthe segments break their rules'),
]


def refused(path, why):
    return b'sclk: ' + (path if isinstance(path, bytes) else path.encode()) + b': refused\t' + why + b'\n'


def unreadable(sclk):
    os.mkdir(os.path.join(sclk.folder, 'folder'))
    os.mkfifo(os.path.join(sclk.folder, 'pipe'))
    missing = [
        ('none', b'sclk: none: No such file or directory\n'),
        ('', b'sclk: : No such file or directory\n'),
        ('folder', b'sclk: folder: Is a directory\n'),
        ('folder/none', b'sclk: folder/none: No such file or directory\n'),
        (sclk.galileo + '/none', b'sclk: %s/none: Not a directory\n' % sclk.galileo.encode()),
        ('k' * 4095, b'sclk: %s: File name too long\n' % (b'k' * 4095)),
        # No path is longer. Of a longer name the first 4,096 bytes are said.
        ('k' * 4096, b'sclk: %s: File name too long\n' % (b'k' * 4096)),
        ('./' * 2047 + '/k', b'sclk: %s: File name too long\n' % (b'./' * 2047 + b'/k')),
        ('k' * 100_000, b'sclk: %s: File name too long\n' % (b'k' * 4096)),
        ('/dev/zero', b'sclk: /dev/zero: larger than 4 MiB\n'),
    ]
    for path, errors in missing:
        for words in (['time', path], ['stamp', path], ['count', path], ['describe', path], ['compare', path, sclk.galileo], ['compare', sclk.galileo, path]):
            expect(sclk.run(*words, '77', given=GIVEN), 4, b'', errors)
            sclk.beside(*words, '77', given=GIVEN)
    # The older kernel is read first.
    expect(sclk.run('compare', 'none', 'folder', '77', given=GIVEN), 4, b'', missing[0][1])
    expect(sclk.run('compare', 'folder', 'none', '77', given=GIVEN), 4, b'', missing[2][1])


def sizes(sclk, text):
    wanted = sclk.run('describe', sclk.galileo, '77')
    expect(wanted, 0, None, b'')
    for size in (LARGEST - 1, LARGEST):
        sclk.file('large', padded(text, size))
        expect(sclk.run('describe', 'large', '77'), 0, wanted.output, b'')
        expect(sclk.run('compare', 'large', sclk.galileo, '77'), 0, None, b'')
    sclk.file('larger', padded(text, LARGEST + 1))
    expect(sclk.run('describe', 'larger', '77'), 4, b'', b'sclk: larger: larger than 4 MiB\n')
    expect(sclk.run('compare', 'large', 'larger', '77'), 4, b'', b'sclk: larger: larger than 4 MiB\n')
    # The kernel with the most rows, under the stack that a program has by default.
    rows = largest()
    sclk.file('rows', rows)
    sclk.file('rows too', rows)
    given = b'1/0\n9999/1:0\n10000/0\n5000/1\n'
    for words in (['describe', 'rows'], ['time', 'rows'], ['compare', 'rows', 'rows too']):
        sclk.beside(*words, '1', given=given)
    wanted = sclk.run('compare', 'rows', 'rows too', '1', given=given)
    limited = sclk.run('compare', 'rows', 'rows too', '1', given=given, program=['sh', '-c', 'ulimit -s 8192 && exec "$0" "$@"'] + sclk.program)
    expect(limited, wanted.status, wanted.output, b'')


def in_pieces(sclk, text):
    """A kernel that comes through a pipe, in pieces."""
    wanted = sclk.run('time', sclk.galileo, '77', given=GIVEN)
    for size in (1, 700, 5_000):
        def write():
            with open(os.path.join(sclk.folder, 'pipe'), 'wb', buffering=0) as pipe:
                for i in range(0, len(text), size):
                    pipe.write(text[i:i + size])
        writer = threading.Thread(target=write)
        writer.start()
        expect(sclk.run('time', 'pipe', '77', given=GIVEN), wanted.status, wanted.output, b'')
        writer.join()


def refusals(sclk, text):
    sclk.file('empty', b'')
    empty = b'18\t-\tthe first line is not KPL/SCLK'
    for old, new, why in [(text, b'', empty)] + REFUSED:
        assert old in text, old
        path = sclk.file('bad', text.replace(old, new, 1))
        for words in (['time', path], ['stamp', path], ['count', path], ['describe', path], ['compare', path, sclk.galileo], ['compare', sclk.galileo, path]):
            expect(sclk.run(*words, '77', given=GIVEN), 3, b'', refused(path, why))
        sclk.beside('time', path, '77', given=GIVEN, errors=True)
    # Another clock than the kernel's: its names are missing. The greatest numbers of a clock are read.
    for clock in ('78', '-78', '0', '-0', '9223372036854775807', '-9223372036854775808'):
        expect(sclk.run('time', sclk.galileo, clock, given=GIVEN), 3, b'', refused(sclk.galileo, REFUSED[2][2]))
    # Every front of a kernel.
    for size in range(0, len(text), 53):
        sclk.file('front', text[:size])
        sclk.beside('stamp', 'front', '77', given=b'5\n', errors=True)
    # The older kernel is read first, and a refused one ends the run.
    expect(sclk.run('compare', 'empty', 'none', '77', given=GIVEN), 3, b'', refused('empty', empty))
    expect(sclk.run('compare', 'none', 'empty', '77', given=GIVEN), 4, b'', b'sclk: none: No such file or directory\n')
    expect(sclk.run('compare', 'empty', 'bad', '77', given=GIVEN), 3, b'', refused('empty', empty))
    expect(sclk.run('compare', sclk.surveyor, 'none', '77', given=GIVEN), 3, b'', refused(sclk.surveyor, REFUSED[2][2]))
    # A small table by hand.
    sclk.file('small', table(1, [100, 10], [(0, 500), (200, 900)], [(0, -1000, 25_000), (600, 1000, 30_000)]))
    expect(sclk.run('time', 'small', '1', given=b'1/0\n2/20\n'), 0, b'0\t-1000\t1/00.0\n500\t250\t2/20.0\n', b'')


def test(sclk):
    with open(sclk.galileo, 'rb') as kernel:
        text = kernel.read()
    unreadable(sclk)
    sizes(sclk, text)
    in_pieces(sclk, text)
    refusals(sclk, text)
