"""Kernel texts."""


def padded(text, size):
    """The same kernel with comment lines behind it, so that it has so many bytes."""
    comment = b'-' * 79 + b'\n'
    more = size - len(text)
    return text + comment * (more // len(comment)) + b'-' * (more % len(comment))


def seconds(units, places):
    """A whole number of units of 10^-places as a decimal."""
    sign, digits = '-' if units < 0 else '', str(abs(units)).rjust(places + 1, '0')
    return '%s%s.%s' % (sign, digits[:-places], digits[-places:])


def table(clock, moduli, partitions, segments, delimiter=1, offsets=None):
    """The kernel of a table: partitions as (start, end), segments as (count, time in ns, rate in ps)."""
    def assigned(name, values):
        return '%s_%d = ( %s )\n' % (name, clock, '\n '.join(str(value) for value in values))

    rows = ['%d %s %s' % (count, seconds(time, 9), seconds(rate, 12)) for count, time, rate in segments]
    return ('KPL/SCLK\n\\begindata\n'
            + 'SCLK_KERNEL_ID = ( @2001-JAN-01 )\n'
            + assigned('SCLK_DATA_TYPE', [1])
            + assigned('SCLK01_N_FIELDS', [len(moduli)])
            + assigned('SCLK01_MODULI', moduli)
            + assigned('SCLK01_OFFSETS', offsets or [0] * len(moduli))
            + assigned('SCLK01_OUTPUT_DELIM', [delimiter])
            + assigned('SCLK_PARTITION_START', [start for start, _ in partitions])
            + assigned('SCLK_PARTITION_END', [end for _, end in partitions])
            + assigned('SCLK01_COEFFICIENTS', rows)
            + '\\begintext\n').encode()


def largest():
    """As many partitions and segments as a kernel may have."""
    partitions = [(7 * i % 13, 7 * i % 13 + 40) for i in range(9_999)]
    segments = [(36 * i, 1_000 * i * i - 5 * 10 ** 12, 1_000_000 + i) for i in range(10_000)]
    return table(1, [1_000_000, 10], partitions, segments)
