#!/usr/bin/env python3
"""Ranks the pairs of a listing by shared count and by ratio, side by side, and says who moves.

    scripts/who-moves.py [LISTING]           no LISTING, or `-`: standard input
    scripts/who-moves.py LISTING DOUBLED     DOUBLED: the listing after every type got a second code

Writes a row a pair, in the order of shared counts (ties as in by-shared.py): the rank by count, the rank by
ratio, how far the pair moved between the two (+ is up, - is down), with DOUBLED the rank by ratio after
doubling, then the pair's contexts, and its shared and union counts. Lines below the table say what else is
to be known; with DOUBLED the last one says whether anybody moved from ratio to doubled. Code c becomes 2c
and 2c + 1, so the counts and the first shared code of each pair must be exactly twice what they were.

Status: 0 fine; 1 not a listing, or with DOUBLED: somebody moved, or a pair has not exactly twice its counts
or twice its first shared code; 2 a file cannot be read or written, or wrong usage.
"""
import sys

from files import Fault, files_named, listing_of, put, told
from listings import by_count


def ranks(pairs):
    """The rank of each pair, from 1, by its contexts."""
    return {pair[:2]: rank for rank, pair in enumerate(pairs, 1)}


def moved(before, after):
    """How far a pair went from one rank to another: + for up."""
    return f"{before - after:+}" if before != after else "0"


def row(count, ratio, move, doubled, pair, shared, union):
    """A row of the table; the doubled rank is a list, empty if there is no such column."""
    further = "".join(f"  {rank:>7}" for rank in doubled)
    return f"{count:>5}  {ratio:>5}  {move:>5}{further}  {pair:>7}  {shared:>6}  {union:>5}\n"


def table(pairs, after):
    """The heads, and a row a pair; `after` has the ranks after doubling, or is None."""
    by_ratio = ranks(pairs)
    yield row("count", "ratio", "moved", ["doubled"] if after is not None else [], "pair", "shared", "union")
    for count, pair in enumerate(by_count(pairs), 1):
        ratio = by_ratio[pair[:2]]
        doubled = [after.get(pair[:2], "-")] if after is not None else []
        contexts = f"{pair.lower} {pair.higher:>3}"
        yield row(count, ratio, moved(count, ratio), doubled, contexts, pair.shared, pair.union)


def some(number):
    return "1 pair" if number == 1 else f"{number} pairs"


def in_both(pairs, doubled):
    """The pairs of both listings, each with its second self."""
    second = {pair[:2]: pair for pair in doubled}
    return [(pair, second[pair[:2]]) for pair in pairs if pair[:2] in second]


def is_twice_counts(one, two):
    return (two.shared, two.union) == (2 * one.shared, 2 * one.union)


def is_twice_code(one, two):
    return two.code == 2 * one.code


# What a pair has twice of after doubling: its name, the test, and how it is told.
TWICE = (
    ("the counts", is_twice_counts, "{0.shared} of {0.union}"),
    ("the first shared code", is_twice_code, "{0.code}"),
)


def not_twice(both, what, is_twice, words):
    """The line about the pairs that fail a test, or nothing if there are none."""
    wrong = [(one, two) for one, two in both if not is_twice(one, two)]
    if not wrong:
        return ""
    one, two = wrong[0]
    return (f"Not twice {what}: {some(len(wrong))}. First {one.lower} {one.higher}: "
            f"{words.format(one)}, then {words.format(two)}.\n")


def movers(pairs, doubled):
    """How many pairs have another rank in the second listing, or stand in one of the two alone."""
    before, after = ranks(pairs), ranks(doubled)
    return sum(before.get(pair) != after.get(pair) for pair in before.keys() | after.keys())


def verdict(pairs, doubled):
    """The lines about doubling, and whether all is well."""
    both, number = in_both(pairs, doubled), movers(pairs, doubled)
    wrong = "".join(not_twice(both, *test) for test in TWICE)
    last = f"From ratio to doubled: {some(number) if number else 'nobody'} moved.\n"
    return [wrong, last], not wrong and not number


def report(first, second):
    """All lines for one listing or two, and whether all is well."""
    after = ranks(second.pairs) if second else None
    lines = list(table(first.pairs, after))
    if len(first.pairs) == first.k:
        lines.append(f"As many pairs as were asked for (k={first.k}): there may be more, and only these are ranked.\n")
    if second is None:
        return lines, True
    said, well = verdict(first.pairs, second.pairs)
    return lines + said, well


def main(arguments):
    try:
        files = files_named(arguments, 2, __doc__)
        first, second = (list(map(listing_of, files)) + [None])[:2]
        if second and second.k != first.k:
            raise Fault(1, f"The listings were made with k={first.k} and k={second.k}. "
                                  "Ask for the same number of pairs in both sheets.")
        lines, well = report(first, second)
        put("".join(lines))
    except Fault as fault:
        return told(fault)
    return 0 if well else 1


if __name__ == "__main__":
    sys.exit(main(sys.argv[1:]))
