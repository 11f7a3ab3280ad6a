#!/usr/bin/env python3
"""Run by hand, and by check/demos.py: puts another word in a sector's value or label, as a stray write would.

So hints are spoilt by hand, for the transcripts of demo/. The pack file is that of one drive. docs/formats.md says which word is what.
"""
import argparse
import struct

import packs


def main():
    parser = argparse.ArgumentParser(description=__doc__, formatter_class=argparse.RawDescriptionHelpFormatter)
    parser.add_argument("pack", metavar="PACK", help="the path of the pack file")
    parser.add_argument("sector", type=int, metavar="SECTOR", help="the sector's address, from 0")
    parser.add_argument("word", type=int, metavar="WORD", help="the place of the word: 0 to 255 in the value, 256 to 263 in the label")
    parser.add_argument("number", type=int, metavar="NUMBER", help="the new word, 0 to 65535")
    options = parser.parse_args()
    with open(options.pack, "r+b") as file:
        file.seek(packs.word_at(options.sector, options.word))
        file.write(struct.pack(">H", options.number))


main()
