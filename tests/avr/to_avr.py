#!/usr/bin/env python3
"""The LLVM module that rattle makes for x86-64, as text, rewritten for AVR. `to_avr.py PART < MODULE > MODULE`

What the rewriting rests on: the module has no layout of its own. Structs and arrays are bytes at explicit offsets, and every read and
write names its width. A pointer has eight bytes there, of which AVR uses two and never looks at the others. A usize stays 64 bits wide;
an index is cut to 16 bits where it becomes an address, and an index that is proved to be within a slice is below the slice's length,
which no AVR part's data space exceeds.

A pointer and a length that a function hands back are read as a pair; the pair is put together here from the two, eight bytes apart.

Nothing but these is changed:
- triple and data layout are AVR's, the latter filled in by LLVM from the triple;
- attributes name the part instead of x86-64, and a probing of stack pages, which AVR has not, is left out;
- the sizes of memory moves and fills are 16 bits wide; all are constants;
- a pair of a pointer and a length is read by its parts;
- alignments are left out: AVR's are one byte."""
import re
import sys


def replaced(pattern, by, text, wanted):
    """The text with all occurrences replaced; there must be some if they are wanted."""
    text, n = re.subn(pattern, by, text, flags=re.M)
    if n == 0 and wanted:
        sys.exit(f"to_avr.py: the module has no {pattern}: rattle writes it otherwise than this script expects")
    return text


def by_parts(text):
    """The text with each pair of a pointer and a length that is read as one read by its parts: where the second lies is x86-64's."""
    text = re.sub(r"^( *)(%[\w.]+) = load \{ ptr, i64 \}, ptr (%[\w.]+)$",
                  r"\1\2.first = load ptr, ptr \3\n\1\2.at = getelementptr i8, ptr \3, i64 8\n\1\2.second = load i64, ptr \2.at\n"
                  r"\1\2.half = insertvalue { ptr, i64 } poison, ptr \2.first, 0\n"
                  r"\1\2 = insertvalue { ptr, i64 } \2.half, i64 \2.second, 1", text, flags=re.M)
    # (of two numbers of one width the second lies in one place on both)
    left = re.search(r"(?:load|store) \{ (?!(i\d+), \1 \}).*", text)
    if left:
        sys.exit(f"to_avr.py: a struct that is read or written whole: {left.group()}")
    return text


def rewritten(text, part):
    text = replaced(r'^target datalayout = ".*"\n', "", text, True)
    text = replaced(r'^target triple = ".*"$', 'target triple = "avr-unknown-unknown"', text, True)
    text = replaced(r'"(?:probe-stack"="inline-asm|stack-probe-size"="\d+)" ?', "", text, False)
    text = replaced(r'"target-cpu"="x86-64(?:-v\d)?"', f'"target-cpu"="{part}"', text, True)
    text = replaced(r", align \d+", "", text, False)
    for name in (r"@llvm\.mem(?:move|cpy)\.p0\.p0\.", r"@llvm\.memset\.p0\."):
        text = replaced(rf"({name})i64\((.*?), i64 (\d+), i1", r"\1i16(\2, i16 \3, i1", text, False)
        text = replaced(rf"(declare void {name})i64\((.*?), i64, i1", r"\1i16(\2, i16, i1", text, False)
    text = by_parts(text)
    left = re.search(r"@llvm\.mem\w+\.[\w.]*i64.*", text)
    if left:
        sys.exit(f"to_avr.py: no constant size: {left.group()}")
    return text


if __name__ == "__main__":
    sys.stdout.write(rewritten(sys.stdin.read(), sys.argv[1]))
