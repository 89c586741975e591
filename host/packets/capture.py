#!/usr/bin/env python3
"""Writes packets as a dump and as a capture.

    capture.py DUMP CAPTURE < ANSWERS

ANSWERS are those of the case script to `write-packet`, one a line: ok LENGTH BUFFER. DUMP gets the packets one behind the other.
CAPTURE is a pcap file with one packet a record, of the link type that is kept for users (147).
"""

import struct
import sys

USER0 = 147
LONGEST = 65_542


def packets(answers):
    for line in answers:
        words = line.split()
        if len(words) != 3 or words[0] != "ok":
            sys.exit(f"capture.py: no packet: {line.strip()}")
        yield bytes.fromhex(words[2])[: int(words[1])]


def main(dump_path, capture_path):
    with open(dump_path, "wb") as dump, open(capture_path, "wb") as capture:
        capture.write(struct.pack("<IHHiIII", 0xA1B2C3D4, 2, 4, 0, 0, LONGEST, USER0))
        count = 0
        for count, packet in enumerate(packets(sys.stdin), 1):
            dump.write(packet)
            capture.write(struct.pack("<IIII", count, 0, len(packet), len(packet)) + packet)
    print(f"{count} packets in {dump_path} and {capture_path}")


if __name__ == "__main__":
    main(*sys.argv[1:])
