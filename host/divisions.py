#!/usr/bin/env python3
"""Looks for divisions in the machine code of calls of the library.

    host/divisions.py ARCHIVE CALL...

Goes through each CALL and whatever of the archive it reaches, and prints what it went through and every instruction that divides.
The exit status is 0 where nothing divides, 1 where something does, and 2 where it cannot tell: a call is not there or has no code,
or the code reaches a function that is neither in the archive nor one of C's for memory, or goes on through a pointer.
"""

import re
import subprocess
import sys

# These are C's, and copy, fill or compare memory.
MEMORY = {"memcpy", "memmove", "memset", "memcmp", "bcmp"}


class CannotTell(Exception):
    pass


def objdump(option, archive):
    run = subprocess.run(["objdump", *option.split(), archive], capture_output=True, text=True)
    if run.returncode != 0:
        raise CannotTell(f"objdump {option}: {run.stderr.strip()}")
    return run.stdout.splitlines()


def places_of_symbols(archive):
    """The section and address of each symbol. A section is a symbol too, of its own name."""
    places = {}
    for line in objdump("-t", archive):
        found = re.match(r"([0-9a-f]{16}) .{7} (\S+)\t[0-9a-f]{16}\s+(.+)", line)
        if found and found[2] != "*UND*":
            symbol = found[3].removeprefix(".hidden ")
            places.setdefault(symbol, set()).add((found[2], int(found[1], 16)))
    return places


def symbols_named(archive):
    """The symbols that each section refers to."""
    named, section = {}, None
    for line in objdump("-r", archive):
        heading = re.match(r"RELOCATION RECORDS FOR \[(.+)\]:", line)
        record = re.match(r"[0-9a-f]{16} R_\w+\s+(.+?)([+-]0x[0-9a-f]+)?$", line)
        if heading:
            section = heading[1]
        elif record:
            named.setdefault(section, set()).add(record[1])
    return named


def instructions(archive):
    """The instructions of each section that has code, by address. Sections of one name are taken together."""
    code, section = {}, None
    for line in objdump("-d --no-show-raw-insn", archive):
        heading = re.match(r"Disassembly of section (.+):", line)
        instruction = re.match(r" *([0-9a-f]+):\t(.+)", line)
        if heading:
            section = heading[1]
        elif instruction:
            code.setdefault(section, []).append((int(instruction[1], 16), instruction[2].strip()))
    return code


def section_of(symbol, places):
    """Where a symbol stands; None if the archive does not have it."""
    found = places.get(symbol, set())
    if len(found) > 1:
        raise CannotTell(f"{symbol} stands in more than one place")
    for section, _ in found:
        if section.startswith("*"):
            raise CannotTell(f"{symbol} stands in no section")
        return section
    return None


def reached(call, places, named, code):
    """The sections that a call reaches, its own first."""
    start = section_of(call, places)
    if start is None or not any((start, address) in places[call] for address, _ in code.get(start, ())):
        raise CannotTell(f"{call} has no code")
    found = [start]
    for section in found:
        for symbol in sorted(named.get(section, ())):
            target = section_of(symbol, places)
            if target is None and symbol not in MEMORY:
                raise CannotTell(f"{section} reaches {symbol}, which is not in the archive")
            if target is not None and target not in found:
                found.append(target)
        for _, instruction in code.get(section, ()):
            if re.search(r"\b(call|jmp)\w*\s+\*", instruction):
                raise CannotTell(f"{section} goes on by a pointer: {instruction}")
    return found


def divides(instruction):
    """Does this instruction divide? Prefixes may come before its name; a symbol's name in <> behind it is ignored."""
    return re.search(r"(^| )[a-z]*(div|fprem)", instruction.split("<")[0])


def main(archive, *calls):
    if not calls:
        raise CannotTell("no call is named")
    places, named, code = places_of_symbols(archive), symbols_named(archive), instructions(archive)
    status = 0
    for call in calls:
        for section in reached(call, places, named, code):
            lines = [instruction for _, instruction in code.get(section, ())]
            found = [line for line in lines if divides(line)]
            print(f"{call}: {section}: {len(lines)} instructions, {len(found)} divide")
            for line in found:
                print(f"    {line}")
                status = 1
    return status


if __name__ == "__main__":
    try:
        sys.exit(main(*sys.argv[1:]))
    except Exception as problem:  # whatever it is, nothing is known
        print(f"host/divisions.py: cannot tell: {problem}", file=sys.stderr)
        sys.exit(2)
