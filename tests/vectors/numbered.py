#!/usr/bin/env python3
"""Brings a file of set vectors from before request K7 to the count word that sets have since, and adds rows whose number is wrong.

  numbered.py VECTORS NEW

VECTORS and NEW have a row a line: operation | k | first | second | room words | answer, their first line names the columns; compact.py reads NEW. The
count word had the number of members. It keeps that in its lower half, and its upper half is how many of the members are not complete at the row's k,
in the sets that a row lends and in the one that it answers with. That number is worked out here from the members' fields, also where the words hold no
set for another reason, so that this reason stays the only one. Words stay as they are where they are fewer than the members that they say, and where
the upper half was in use already: that was a count beyond all words, is a wrong number now, and is refused 13 as it was. How many words of each sort
there were is printed. Nothing else of a row is touched, and no other answer is worked out.
"""
import sys
from collections import Counter

HALF = 1 << 32
EPSILON = None


def words_of(cell):
    return [] if cell == "-" else [int(x, 16) for x in cell.split(",")]


def cell_of(words):
    return ",".join("%016x" % x for x in words) or "-"


def is_open(lo, hi, k):
    """Whether a string is unfinished at k: it is epsilon, or has fewer than k slots and does not end in 0."""
    value, width, slots = hi << 64 | lo, hi >> 60, hi >> 56 & 15
    ones = (1 << width) - 1
    if slots == 1 and value & ones == ones:
        return True
    return slots < k and (slots == 0 or value >> width * (slots - 1) & ones != 0)


def number(words, k):
    """How many of the members that words say are unfinished at k; None where they are fewer words than that, or say a number already."""
    if not words or words[0] >= HALF or len(words) < 2 * words[0] + 1:
        return None
    return sum(is_open(*words[i:i + 2], k) for i in range(1, 2 * words[0] + 1, 2))


def numbered(cell, k, tally):
    """The cell with its number. Where words of before have an upper half, that is a wrong number for the members that the lower half says."""
    words = words_of(cell)
    u = number(words, k)
    if u is None:
        lower = [words[0] % HALF, *words[1:]] if words else []
        if words and words[0] >= HALF:
            assert number(lower, k) != words[0] // HALF
            tally["that stay: their upper half was in use"] += 1
        elif words:
            tally["that stay: fewer words than members"] += 1
        return cell
    tally["with a number over 0" if u else "with the number 0"] += 1
    return cell_of([words[0] + u * HALF, *words[1:]])


def answer(cell, k, tally):
    """A set that is answered with is numbered; a union's says behind a blank whether it added."""
    words, blank, added = cell.partition(" ")
    return cell if "," not in words and len(words) != 16 else numbered(words, k, tally) + blank + added


def member(terminals, width=4):
    ones = (1 << width) - 1
    slots = [ones] if terminals is EPSILON else terminals
    value = sum(x << width * i for i, x in enumerate(slots)) | width << 124 | len(slots) << 120
    return [value % (1 << 64), value >> 64]


def lent(u, *strings, width=4):
    """The words of a set, three of them spare, with the number u."""
    return [u * HALF + len(strings), *(w for s in strings for w in member(s, width)), 0, 0, 0]


def wrong_rows():
    """Rows with a wrong number: refused 13, and only after 1 and 10. Their sets are right in all else."""
    five, pair, ended, long = lent(1, [5]), lent(1, [6], [5, 6]), lent(0, [0], [5, 0]), lent(0, list(range(5, 15)))
    none, any_k = lent(0), lent(1, EPSILON)
    both = ("union", "intersection", "join")
    rows = [(op, 2, lent(0, [5]), pair, 9, 13) for op in both]                     # too low
    rows += [(op, 2, pair, lent(2, [5]), 9, 13) for op in both]                    # too high, more than the members
    rows += [(op, 2, five, lent(2, [6], [5, 6]), 9, 13) for op in both]            # that of k = 3
    rows += [(op, 1, five, none, 9, 13) for op in both]                            # that of k = 2
    rows += [(op, 2, lent(1), pair, 9, 13) for op in both]                         # no member, and one unfinished
    rows += [(op, 2, ended, lent(HALF - 1), 9, 13) for op in both]
    rows += [(op, 2, lent(1, [0], [5, 0]), ended, 9, 13) for op in both]           # the end marker is unfinished at no k
    rows += [(op, 1, any_k, lent(0, EPSILON), 9, 13) for op in both]               # and epsilon at every one
    rows += [(op, 10, long, lent(1, list(range(5, 15))), 9, 13) for op in both]
    rows += [("disjoint", 2, a, b, None, 13) for a, b in ((lent(0, [5]), pair), (five, lent(0, [6], [5, 6])), (lent(1), five), (five, lent(3)), (lent(2, [0], [5]), ended))]
    rows += [("complete", k, a, None, None, 13) for k, a in (
        (1, five), (2, lent(0, [5])), (2, lent(2, [5])), (3, pair), (1, lent(1)), (1, lent(0, EPSILON)), (4, lent(1, [0], [5, 0])), (10, lent(1, list(range(5, 15)))))]
    wide = lent(0, [5], width=5)
    rows += [(op, 2, five, wide, 9, 13) for op in both] + [("disjoint", 2, wide, five, None, 13)]   # before 15
    rows += [(op, 2, lent(0, [5]), pair, 1, 13) for op in both]                    # before 11
    rows += [(op, 2, lent(0, [5]), pair, 0, 10) for op in both] + [("disjoint", 2, lent(0, [5]), [], None, 10)]
    rows += [(op, 11, lent(0, [5]), pair, 9, 1) for op in both] + [("complete", 0, five, None, None, 1)]
    return rows


def written(op, k, a, b, room, r):
    """A row of these as the file has it. Where it is refused 13, one of its numbers is wrong and no other."""
    wrong = sum(number([s[0] % HALF, *s[1:]], k) != s[0] // HALF for s in (a, b) if s)
    assert wrong == 1 or r != 13 and wrong
    return [op, str(k), cell_of(a), "-" if b is None else cell_of(b), "-" if room is None else str(room), "refused %d" % r]


def main(vectors, new):
    with open(vectors, encoding="ascii") as f:
        header, *rows = [[cell.strip() for cell in row.split("|")] for row in f if row.strip()]
    tally, out = Counter(), [header]
    for op, k, a, b, room, told in rows:
        out.append([op, k, numbered(a, int(k), tally), numbered(b, int(k), tally), room, answer(told, int(k), tally)])
    wrong = [written(*row) for row in wrong_rows()]
    with open(new, "w", encoding="ascii") as f:
        f.writelines(" | ".join(row) + "\n" for row in out + wrong)
    print("%d rows, and %d with a wrong number" % (len(rows), len(wrong)))
    for sort, n in sorted(tally.items()):
        print("%d sets %s" % (n, sort))


if __name__ == "__main__":
    if len(sys.argv) != 3:
        sys.exit(__doc__)
    main(*sys.argv[1:])
