#!/usr/bin/env python3
"""Makes a book file of a listing: samples/make_book.py LISTING > FILE. docs/FILE_FORMAT.md has the form."""
import struct
import sys


def corner(text):
    return [int(x) for x in text.split(",")]


def main(path):
    nodes, kinds = [], []
    for line in open(path):
        words = line.split("#")[0].split()
        if words and words[0] == "node":
            entries = []
            for word in words[2:]:
                target, low, *high = word.split(":")
                entries.append((corner(low), corner(high[0] if high else low), int(target)))
            nodes.append((int(words[1]), entries))
        elif words and words[0] == "kinds":
            kinds = [int(k) for k in words[1:]]
    out = struct.pack("<H", len(nodes))
    first = 0
    for level, entries in nodes:
        out += struct.pack("<BBH", level, len(entries), first)
        first += len(entries)
    out += struct.pack("<H", first)
    for _, entries in nodes:
        for low, high, target in entries:
            out += struct.pack("<6iH", *low, *high, target)
    out += struct.pack("<H", len(kinds)) + bytes(kinds)
    sys.stdout.buffer.write(out)


main(sys.argv[1])
