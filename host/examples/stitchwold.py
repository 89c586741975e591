"""The seven calls of include/stitchwold.h for Python, over libsclk_c.so.

A program keeps one Tables for each clock. It holds the lists as the calls take them; threads may share it.
"""

import ctypes
import struct

LONGEST_STAMP = 66


class Refused(Exception):
    """A refusal; its number is that of sclk_refusal in the header."""

    def __init__(self, number):
        super().__init__("refused %d" % number)
        self.number = number


class Tables:
    """A clock's tables, and the calls on them.

    Fields are (modulus, offset), partitions (start, end), segments (count, time, rate).
    """

    def __init__(self, library, delimiter, fields, partitions=(), segments=()):
        self.library = ctypes.CDLL(library)
        self.layout = [
            ("number", len(fields)),
            ("number", delimiter),
            ("slice", numbers("Q", [modulus for modulus, offset in fields])),
            ("slice", numbers("Q", [offset for modulus, offset in fields])),
        ]
        self.partitions = [
            ("slice", numbers("Q", [start for start, end in partitions])),
            ("slice", numbers("Q", [end for start, end in partitions])),
        ]
        self.segments = [
            ("slice", numbers("Q", [count for count, time, rate in segments])),
            ("slice", numbers("q", [time for count, time, rate in segments])),
            ("slice", numbers("Q", [rate for count, time, rate in segments])),
        ]

    def read_text(self, text):
        """The count of a clock text without partition, given as bytes."""
        return self.call("sclk_read_text", self.layout, ("slice", text))

    def read_stamp(self, text):
        """The encoded count of a stamp, given as bytes."""
        return self.call("sclk_read_stamp", self.layout + self.partitions, ("slice", text))

    def read_message(self, message):
        """The encoded count of the stamp in a message."""
        return self.call("sclk_read_message", self.layout + self.partitions, ("slice", message))

    def print_count(self, count):
        """A count as clock text."""
        buffer = ctypes.create_string_buffer(LONGEST_STAMP)
        length = self.call("sclk_print_count", self.layout, ("number", count), ("buffer", buffer))
        return buffer.raw[:length].decode("ascii")

    def print_stamp(self, count):
        """An encoded count as a stamp."""
        buffer = ctypes.create_string_buffer(LONGEST_STAMP)
        length = self.call("sclk_print_stamp", self.layout + self.partitions, ("number", count), ("buffer", buffer))
        return buffer.raw[:length].decode("ascii")

    def time_of(self, count):
        """The time of an encoded count, in nanoseconds."""
        buffer = ctypes.create_string_buffer(8)
        tables = self.layout + self.partitions + self.segments
        self.call("sclk_time_of", tables, ("number", count), ("buffer", buffer))
        return struct.unpack("<q", buffer.raw)[0]

    def count_at(self, time):
        """The encoded count at a time in nanoseconds."""
        return self.call("sclk_count_at", self.layout + self.partitions + self.segments, ("time", time))

    def call(self, name, tables, *more):
        """Makes a call. A slice or buffer is two arguments, pointer and length in bytes."""
        arguments = []
        for kind, value in tables + list(more):
            if kind == "number":
                arguments.append(ctypes.c_uint64(checked("<Q", value)))
            elif kind == "time":
                arguments.append(ctypes.c_int64(checked("<q", value)))
            elif kind == "slice":
                arguments += [ctypes.c_char_p(value), ctypes.c_size_t(len(value))]
            else:
                arguments += [value, ctypes.c_size_t(len(value))]
        function = self.library[name]
        function.restype = ctypes.c_int64
        result = function(*arguments)
        if result < 0:
            raise Refused(-result)
        return result


def numbers(form, values):
    """A list as the calls take it: eight-byte numbers, low byte first."""
    return struct.pack("<%d%s" % (len(values), form), *values)


def checked(form, value):
    """The value, where it has 64 bits; ctypes would cut it."""
    return struct.unpack(form, struct.pack(form, value))[0]
