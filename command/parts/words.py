"""words: usage, help, options, the clock's number"""

import os

from run import Failure, expect

# Wrong usage; K is a kernel.
WRONG = [
    [],
    [''],
    ['K', '77'],
    ['Time', 'K', '77'],
    ['times', 'K', '77'],
    ['times', '--help'],
    ['-h'],
    ['help'],
    ['--hex', 'time', 'K', '77'],
    ['--seconds', '--help'],
    ['--', '--help'],
    ['time'],
    ['time', 'K'],
    ['time', '77'],
    ['time', 'K', '77', '77'],
    ['time', 'K', 'K', '77'],
    ['time', '77', 'K'],
    ['stamp', 'K'],
    ['count', 'K', '77', ''],
    ['describe'],
    ['compare', 'K', '77'],
    ['compare', 'K', 'K'],
    ['compare', 'K', 'K', '77', '77'],
    # options
    ['time', '--hex', '--hex', 'K', '77'],
    ['time', '--hex', 'K', '77', '--hex'],
    ['time', '--seconds', 'K', '--seconds', '77'],
    ['compare', '--seconds', '--hex', '--seconds', 'K', 'K', '77'],
    ['time', '--', 'K', '77'],
    ['time', '--hexa', 'K', '77'],
    ['time', '--he', 'K', '77'],
    ['time', '--hex=1', 'K', '77'],
    ['time', '--Hex', 'K', '77'],
    ['time', '--77', 'K', '77'],
    ['time', 'K', '--77'],
    ['stamp', '--hex', 'K', '77'],
    ['stamp', '--seconds', 'K', '77'],
    ['count', '--hex', 'K', '77'],
    ['describe', 'K', '77', '--hex'],
    # the clock's number
    ['time', 'K', ''],
    ['time', 'K', '-'],
    ['time', 'K', '+77'],
    ['time', 'K', '77 '],
    ['time', 'K', ' 77'],
    ['time', 'K', '7 7'],
    ['time', 'K', '7-7'],
    ['time', 'K', '-+77'],
    ['time', 'K', '77.'],
    ['time', 'K', '77a'],
    ['time', 'K', '0x4d'],
    ['time', 'K', '7:7'],
    ['time', 'K', '7/7'],
    ['time', 'K', '9223372036854775808'],
    ['time', 'K', '-9223372036854775809'],
    ['time', 'K', '18446744073709551693'],
    ['time', 'K', '77\n'],
    ['time', 'K', b'\xc2\xb277'],
    # long words, and many
    ['time', 'K', '0' * 4094 + '77'],
    ['time', 'k' * 4096, '0' * 4094 + '77'],
    ['time', 'k' * 4096],
    ['time', 'k' * 4096, 'K', '77'],
    ['compare', 'k' * 4096, '77'],
    ['time', '--' + 'x' * 4094, 'K', '77'],
    ['time', 'k' * 4096, '--' + 'x' * 4094, '77'],
    ['t' * 4096, 'K', '77'],
    ['time', '--' + 'x' * 100_000, 'K', '77'],
    ['time'] + ['K'] * 5_000 + ['77'],
]

HELP = [
    ['--help'],
    ['--help', '--help'],
    ['--help', 'x', 'y', 'z', '--hex'],
    ['time', '--help'],
    ['time', 'K', '77', '--help'],
    ['stamp', '--hex', '--help'],
    ['count', '--help', '--help'],
    ['describe', 'a', 'b', 'c', 'd', 'e', '--bogus', '--help'],
    ['compare', '--hex', '--hex', '--help'],
    ['time', 'x' * 5_000, '--help'],
    ['time'] + ['K'] * 5_000 + ['--help'],
]

# Words that ask the same.
ALIKE = [
    [['time', 'K', '77'], ['time', 'K', '-77'], ['time', 'K', '077'], ['time', 'K', '-' + '0' * 30 + '77'], ['time', 'K', '0' * 4093 + '77']],
    [['time', '--seconds', 'K', '77'], ['time', 'K', '--seconds', '77'], ['time', 'K', '77', '--seconds']],
    [['time', '--hex', '--seconds', 'K', '77'], ['time', '--seconds', 'K', '77', '--hex'], ['time', 'K', '--hex', '--seconds', '77']],
    [['compare', '--hex', 'K', 'K', '77'], ['compare', 'K', '--hex', 'K', '77'], ['compare', 'K', 'K', '77', '--hex']],
    [['describe', '--seconds', 'K', '77'], ['describe', 'K', '77', '--seconds']],
    [['count', '--seconds', 'K', '77'], ['count', 'K', '77', '--seconds']],
]

GIVEN = b'1/0:0:0:0\n1/2.3.4\n-322875915.17365\n0\n1\n00020a\n'


def test(sclk):
    def of(words):
        return [sclk.galileo if word == 'K' else word for word in words]

    for words in WRONG:
        expect(sclk.run(*of(words), given=GIVEN), 2, b'', sclk.usage)
        sclk.beside(*of(words), given=GIVEN, errors=True)
    for words in HELP:
        expect(sclk.run(*of(words), given=GIVEN), 0, sclk.help, b'')
    for group in ALIKE:
        first, *others = [sclk.run(*of(words), given=GIVEN) for words in group]
        for run in others:
            expect(run, first.status, first.output, first.errors)
        # Only describe tells the clock's number.
        if first.status not in (0, 1):
            raise Failure(str(first))

    # Words that look like others are names of files where a file's name stands.
    with open(sclk.galileo, 'rb') as kernel:
        text = kernel.read()
    wanted = sclk.run('time', sclk.galileo, '77', given=GIVEN)
    for name in ['time', '77', '-77', '-h', 'with blanks', '--hex', 'k' * 255]:
        sclk.file(name, text)
        expect(sclk.run('time', './' + name, '77', given=GIVEN), wanted.status, wanted.output, b'')
        if name != '--hex':
            expect(sclk.run('time', name, '77', given=GIVEN), wanted.status, wanted.output, b'')

    # A file whose name is not UTF-8 cannot be read, whether it is there or not.
    sclk.file(b'\xff\xfe', text)
    for name in (b'\xff\xfe', b'./\xff\xfe', b'\xc3'):
        expect(sclk.run('time', name, '77', given=GIVEN), 4, b'', b'sclk: ' + name + b': invalid filename\n')
        sclk.beside('time', name, '77', given=GIVEN, errors=True)

    # As users start it: from another folder, and by a link. Words and input reach the program as they are.
    link = os.path.join(sclk.folder, 'linked')
    os.symlink(sclk.started[0], link)
    for started in (sclk.started, [link]):
        expect(sclk.run('time', 'time', '77', given=GIVEN, program=started), wanted.status, wanted.output, b'')
        expect(sclk.run('time', 'with blanks', '--seconds', '77', given=GIVEN, program=started), wanted.status, None, b'')
        expect(sclk.run('time', '', '77', given=GIVEN, program=started), 4, b'', b'sclk: : No such file or directory\n')
        expect(sclk.run(program=started), 2, b'', sclk.usage)
        expect(sclk.run('--help', program=started), 0, sclk.help, b'')
