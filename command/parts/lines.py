"""lines: beside the second implementation"""

import random

from kernels import table
from run import Failure, expect

# Two tables of which the newer succeeds the older, or not.
ROWS = [(0, -1_000, 25_000), (600, 1_000, 30_000), (900, 3_000, 30_000)]


def small(segments, partitions=((0, 500), (200, 900))):
    return table(1, [100, 10], list(partitions), segments)


STAMPS = [
    b'', b' ', b'1', b'1/', b'/1', b'1/0', b'1/0.0', b'1/0.0.0', b'2/20.5', b'2/ 20 . 5 ', b'  1/ 2.3', b'1/2 3', b'1/2:3', b'1/2-3', b'1/2,3', b'1/2.', b'1/.3', b'1/50.0', b'1/50.1',
    b'2/90', b'2/90.1', b'2/19.9', b'3/0', b'0/0', b'01/02.03', b'1//2', b'1/2/3', b'a', b'1/a', b'1/2.x', b'\x00', b'\xff', b'1/2\r', b'1/2\r\r', b'\r', b'1/2\t3', b'9' * 96, b'9' * 97, b' ' * 97,
    b'1/99999999999999999999999', b'18446744073709551616/1', b'60.0', b'119.9', b'120.0', b'120.1', b'0/1', b'-1/2', b'1/ ', b'1 /2', b'5', b'5.0', b'7' * 4_000, b'x' * 100_000,
]

NUMBERS = [
    b'', b'0', b'00', b'-0', b'-', b'--1', b'+1', b'1', b'-1', b'599', b'600', b'1200', b'1201', b'18446744073709551615', b'18446744073709551616', b'9' * 96, b'-' + b'9' * 95, b'9' * 97, b'0' * 96, b'0' * 95 + b'7',
    b'1 ', b' 1', b'1.0', b'1.', b'.5', b'-.5', b'-.', b'.', b'1..2', b'1.2.3', b'1.000000001', b'1.0000000010', b'1.0000000001', b'1.000000000' + b'0' * 80, b'-0.000001', b'-0.000000999', b'0.000002', b'0.0000015',
    b'-1000', b'-1001', b'-999', b'1000', b'3000', b'4000000000', b'4000000000000000000', b'4000000000000000001', b'-4000000000000000000', b'-4000000000000000001', b'4000000000.000000001', b'-4000000000', b'x', b'1e3', b'12a', b'-x', b'\x00', b'1\r', b'1\r\r', b'\r', b'\xff' * 98,
]

HEXED = [
    b'', b'0', b'00', b'0002', b'312f300003', b'312f300002', b'312f300004', b'312F300003', b'00312f300003', b'00', b'ff', b'FF', b'0g', b'g0', b'312f 0002', b'0a' * 2_000, b'0a' * 2_000 + b'0', b'0a' * 2_000 + b'g', b'0' * 4_001, b'0' * 3_999, b'g' * 4_001, b'x' * 70_000, b'312f300003\r', b'\r', b'\x00', b'00023',
]


def random_lines(chosen, alphabet, count, longest):
    return [bytes(chosen.choice(alphabet) for _ in range(chosen.randrange(longest))) for _ in range(count)]


def message(text):
    """A message that has this text: three bytes of payload, the text, its length."""
    return b'\x01\x02\x03' + text + len(text).to_bytes(2, 'big')


def test(sclk):
    chosen = random.Random(sclk.seed)
    older, newer = sclk.file('older', small(ROWS[:2])), sclk.file('newer', small(ROWS))
    others = [sclk.file('other %d' % i, text) for i, text in enumerate([
        small([ROWS[0], (600, 1_001, 30_000)]),
        small([ROWS[0], (600, 1_000, 30_001)]),
        small([(0, 5, 25_000)]),
        small(ROWS[:2], ((0, 500), (200, 900), (0, 40))),
        small(ROWS[:2], ((0, 500), (200, 901))),
        small([ROWS[0], ROWS[1], (1_210, 10_000, 30_000)], ((0, 500), (200, 900), (0, 400))),
        small([ROWS[0], ROWS[1], (1_210, 2_000, 30_000)], ((0, 500), (200, 900), (0, 400))),
        table(1, [100, 11], [(0, 500), (200, 900)], ROWS[:2]),
        table(1, [100, 10], [(0, 500), (200, 900)], ROWS[:2], delimiter=5),
        table(1, [100, 10], [(0, 500), (200, 900)], [(0, -1_000, 25_000), (600, -1_000 + 1_500, 30_000)], offsets=[3, 1]),
    ])]
    stamps = STAMPS + random_lines(chosen, b'0123456789/:.- ,\r', 3_000, 14) + random_lines(chosen, bytes(range(256)).replace(b'\n', b''), 200, 120)
    hexed = HEXED + [message(text).hex().encode() for text in stamps if len(text) < 1_000] + random_lines(chosen, b'0123456789abcdefABCDEF', 500, 40)
    numbers = NUMBERS + random_lines(chosen, b'0123456789', 1_000, 6) + random_lines(chosen, b'0123456789.-', 2_000, 12) + random_lines(chosen, b'0123456789.-', 200, 110)

    def given(some):
        return b'\n'.join(some)

    k, m = sclk.galileo, sclk.surveyor
    for kernel, clock in ((older, '1'), (newer, '-1'), (others[8], '1'), (k, '77'), (m, '94')):
        for options in ([], ['--seconds']):
            sclk.beside('time', *options, kernel, clock, given=given(stamps))
            sclk.beside('time', '--hex', *options, kernel, clock, given=given(hexed))
            sclk.beside('count', *options, kernel, clock, given=given(numbers))
            sclk.beside('describe', *options, kernel, clock)
        sclk.beside('stamp', kernel, clock, given=given(numbers))
    for one in [older, newer] + others:
        for other in [older, newer] + others:
            sclk.beside('compare', one, other, '1', given=given(stamps[:600]))
    sclk.beside('compare', '--seconds', older, others[0], '1', given=given(stamps))
    sclk.beside('compare', '--hex', older, newer, '1', given=given(hexed))
    sclk.beside('compare', '--hex', '--seconds', others[2], newer, '1', given=given(hexed))
    # The lists are good for something: many messages are answered, and a pair of tables steps back at its seam.
    answered = [line for line in sclk.run('time', '--hex', older, '1', given=given(hexed)).output.split(b'\n') if not line.startswith(b'refused')]
    if len(answered) < 100:
        raise Failure('only %d messages in hex are answered' % len(answered))
    if not sclk.run('compare', older, others[6], '1', given=b'').output.startswith(b'succeeds\tno\tseam\t1\n'):
        raise Failure('no pair of tables steps back at its seam')
    # Much input.
    many = given(random_lines(chosen, b'0123456789/:.', 100_000, 20))
    sclk.beside('time', k, '77', given=many)
    sclk.beside('compare', k, k, '77', given=many)
    expect(sclk.run('stamp', older, '1', given=b'\n'.join(b'%d' % e for e in range(1_201))), 0, None, b'')
