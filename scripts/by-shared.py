#!/usr/bin/env python3
"""Ranks the pairs of a listing by how many codes they share.

    scripts/by-shared.py [LISTING]        no LISTING, or `-`: standard input

Writes the listing's `pair=` lines: most shared codes first, then the smaller lower context, then the
smaller higher context. Nothing is written unless all of the listing is in order.

Status: 0 fine; 1 this is not a listing; 2 a file cannot be read or written, or wrong usage.
"""
import sys

from files import Fault, files_named, listing_of, put, told
from listings import by_count, line_of


def main(arguments):
    try:
        (file,) = files_named(arguments, 1, __doc__)
        put("".join(map(line_of, by_count(listing_of(file).pairs))))
    except Fault as fault:
        return told(fault)
    return 0


if __name__ == "__main__":
    sys.exit(main(sys.argv[1:]))
