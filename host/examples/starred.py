"""The seven calls from Python: document 01's starred examples, its message and the print of a count. It prints starred.txt.

From the repository's root: ./c-library, then python3 host/examples/starred.py target/c/libsclk_c.so
"""

import sys

from stitchwold import Refused, Tables


def say(asked, call, value):
    try:
        print("%s: %s" % (asked, call(value)))
    except Refused as refusal:
        print("%s: %s" % (asked, refusal))


library = sys.argv[1]
# Table A. A layout alone is enough for text without partition.
a = Tables(library, 1, [(100, 0), (10, 0)], [(0, 500), (200, 900)], [(0, -1000, 25000), (600, 1000, 30000)])
b = Tables(library, 2, [(65536, 0), (60, 0), (800, 1)])

say("read_text 12.3", a.read_text, b"12.3")
say("read_text 5.13", a.read_text, b"5.13")
say("read_text .5", a.read_text, b".5")
say("read_text 12..", a.read_text, b"12..")
say("read_stamp 1/50.0", a.read_stamp, b"1/50.0")
say("read_stamp 1/50.1", a.read_stamp, b"1/50.1")
say("read_stamp 50.1", a.read_stamp, b"50.1")
say("print_stamp 500", a.print_stamp, 500)
say("print_stamp 1200", a.print_stamp, 1200)
say("time_of 1", a.time_of, 1)
say("count_at -997", a.count_at, -997)
say("count_at 700", a.count_at, 700)
say("count_at 2803", a.count_at, 2803)
say("read_text 20538:39:768", b.read_text, b"20538:39:768")
say("read_message 07 d0, 1/5.3, 00 05", a.read_message, b"\x07\xd01/5.3\x00\x05")
say("read_message 07 d0, 1/5.3, 00 08", a.read_message, b"\x07\xd01/5.3\x00\x08")
say("print_count 123", a.print_count, 123)
