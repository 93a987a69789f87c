"""Reads listings and writes pairs. The one place that knows how a listing reads, for every script that takes one."""
import re
from collections import namedtuple

# The longest listing has fewer than 2,048 bytes.
MOST_BYTES = 2048
NUMBER = r"(0|[1-9][0-9]{0,4})"
HEADS = ("k", "found", "events", "met")
HIGHEST_CODE = 4095

# The numbers of a `pair=` line, in their order; the last is the first shared code.
Pair = namedtuple("Pair", "lower higher shared union code")
# Before version 2.0.0 it had no code.
OLD_NUMBERS = len(Pair._fields) - 1
Listing = namedtuple("Listing", "k found events met pairs")


class NoListing(Exception):
    """Why a text is not a listing, with the line where it stops being one."""

    def __init__(self, words, line):
        super().__init__(words)
        self.line = line


def no_listing(lines, line, why):
    found = ascii(lines[line - 1][:40]) if line <= len(lines) else "its end"
    return NoListing(f"this is not a listing: {why}, and here is {found}.", line)


def numbers_of(line, count):
    """The numbers of a `pair=` line that has so many, or None."""
    numbers = re.fullmatch("pair=" + " ".join([NUMBER] * count), line)
    return list(map(int, numbers.groups())) if numbers else None


def pair_of(line):
    """The pair of a `pair=` line, or None."""
    numbers = numbers_of(line, len(Pair._fields))
    pair = Pair(*numbers) if numbers else None
    sound = pair and pair.lower < pair.higher and 0 < pair.shared <= pair.union and pair.code <= HIGHEST_CODE
    return pair if sound else None


def line_of(pair):
    """The `pair=` line of a pair."""
    return f"pair={' '.join(map(str, pair))}\n"


def no_pair(lines, line, found):
    """Why no pair stands in a line. A listing that is only old is known by its first pair."""
    if line == len(HEADS) + 1 <= len(lines) and numbers_of(lines[line - 1], OLD_NUMBERS):
        return NoListing(f"this is a line of an older version, with four numbers: {ascii(lines[line - 1])}. "
                         "List the sheet again.", line)
    wanted = "two contexts, shared, union, first shared code"
    return no_listing(lines, line, f"found={found}, so a pair belongs here: {wanted}")


def ahead(one, other):
    """Whether one pair stands before another in a listing: by ratio, then by context numbers."""
    left, right = one.shared * other.union, other.shared * one.union
    return left > right or (left == right and one[:2] < other[:2])


def head_of(lines):
    """The numbers of the first four lines."""
    numbers = []
    for line, key in enumerate(HEADS, 1):
        said = re.fullmatch(f"{key}={NUMBER}", lines[line - 1]) if line <= len(lines) else None
        if said is None:
            raise no_listing(lines, line, f"{key}= and a number belong here")
        numbers.append(int(said.group(1)))
    return numbers


def pairs_of(lines, found):
    """The pairs behind the head."""
    pairs = []
    for line in range(len(HEADS) + 1, len(HEADS) + found + 1):
        pair = pair_of(lines[line - 1]) if line <= len(lines) else None
        if pair is None:
            raise no_pair(lines, line, found)
        pairs.append(pair)
    return pairs


def check_ranks(lines, pairs):
    """Each pair stands once, and behind a pair that comes first."""
    seen = set()
    for line, (before, pair) in enumerate(zip([None, *pairs], pairs), len(HEADS) + 1):
        if pair[:2] in seen:
            raise no_listing(lines, line, "a pair stands once in it")
        if before and not ahead(before, pair):
            raise no_listing(lines, line, "the pair before must be more alike, or come first at the same ratio")
        seen.add(pair[:2])


def check_end(lines, found):
    """Behind the last pair there is its line end, and then nothing."""
    last = len(HEADS) + found
    if lines[last:] != [""]:
        why = "the last line must end in a line end" if last == len(lines) else f"found={found} pairs and no more"
        raise no_listing(lines, min(last + 1, len(lines)), why)


def read_in(text):
    """The listing of a text, whatever the order of its pairs."""
    lines = text.split("\n")
    if text.startswith("refused="):
        raise NoListing(f"the sheet was refused, so there is no listing: {ascii(lines[0][:40])}. "
                        "'When it refuses' in README.md says what the number means and what to do.", 1)
    if not text or len(text) > MOST_BYTES:
        raise NoListing(f"this is not a listing: it {'has more than 2,048 bytes' if text else 'is empty'}.", 1)
    k, found, events, met = head_of(lines)
    if found > k:
        raise no_listing(lines, 2, f"at most k={k} pairs are found")
    pairs = pairs_of(lines, found)
    check_end(lines, found)
    return Listing(k, found, events, met, pairs)


def listing_in(text):
    """The listing of a text. One that has lost a line on its way is refused, since ranks would be wrong in silence."""
    listing = read_in(text)
    check_ranks(text.split("\n"), listing.pairs)
    return listing


def by_count(pairs):
    """The pairs in the order of shared counts: most first, then the smaller lower context, then the smaller higher."""
    return sorted(pairs, key=lambda pair: (-pair.shared, pair.lower, pair.higher))
