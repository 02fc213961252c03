#!/usr/bin/env python3
"""Turns a file of vectors into what a replaying program reads and what it must print.

  compact.py VECTORS STDIN STDOUT

VECTORS has a row a line: operation | arguments | answer, its first line names the columns. STDIN gets a case a line, all numbers in hexadecimal:

  strings   width M, eps M, end M, make K M TERMINAL.., unpack LO HI, complete K LO HI, cut K LO HI, push LO HI X, order LO HI LO HI, join K LO HI LO HI
  sets      union, intersection, join: K ROOM | first | second;  disjoint: K | first | second;  complete: K | set
  needed    LIMIT C | the table's bytes, for rows limit | c | table | answer
  automata  LIMIT C ROOM | the table's bytes, for rows limit | c | table | room in bytes | answer
  mark      LIMIT C | the table's bytes | four words for each row, for rows limit | c | table | nonterminal:terminals:production .. | answer

STDOUT gets the row's answer as it stands. Nothing here works an answer out: the width of a case `width M` is read off the answer to `eps M` or `end M`.
Rows are left out that a request has replaced, and lists with a number that a terminal's type cannot hold; how many is
printed.
"""
import sys
from collections import Counter

# rows of a request, by the operation that they are now the rule of
NOW = {"make_k2": "make", "push_k2": "push", "complete_k5": "complete"}


def cells(row):
    return [cell.strip() for cell in row.split("|")]


def numbers(cell, base):
    return [] if cell == "-" else [int(x, base) for x in cell.split(",")]


def line(*parts):
    return " ".join(x if isinstance(x, str) else "%x" % x for x in parts)


def string_case(op, args):
    if op in ("eps", "end"):
        return line(op, int(args[0]))
    if op == "make":
        return line(op, int(args[0]), int(args[1]), *numbers(args[2], 10))
    if op in ("complete", "cut", "join"):
        return line(op, int(args[0]), *(w for a in args[1:] for w in numbers(a, 16)))
    if op == "push":
        return line(op, *numbers(args[0], 16), int(args[1]))
    return line(op, *(w for a in args for w in numbers(a, 16)))


def set_case(op, args):
    k, first, second, room = args
    head = [int(k)] if room == "-" else [int(k), int(room)]
    sets = ["|", *numbers(first, 16)]
    if op != "complete":
        sets += ["|", *numbers(second, 16)]
    return line(op, *head, *sets)


def bits(m):
    """How many bits a slot takes, where m is the greatest terminal: all of them 1 is no terminal."""
    return (m + 1).bit_length()


def words(terminals, m):
    """The two words of a string: its slots, the first one lowest, and at the top the width and the length."""
    value = sum(x << bits(m) * i for i, x in enumerate(terminals))
    value |= (bits(m) << 124) | (len(terminals) << 120)
    return value & (1 << 64) - 1, value >> 64


def greatest(table):
    """The greatest terminal of a table: its second number says how many there are. One that has none is refused whatever the rows are."""
    values, low = [], None
    for b in table:
        if low is not None:
            values.append(low + 128 * b)
            low = None
        elif b < 128:
            values.append(b)
        else:
            low = b - 128
    return min(values[1] + 5, 4094) if len(values) > 1 else 5


def table_case(op, args):
    limit, c, table, *more = args
    table = bytes.fromhex(table)
    head = [int(limit), int(c)]
    if op == "automata":
        return line(op, *head, int(more[0]), "|", *table)
    if op == "needed":
        return line(op, *head, "|", *table)
    rows = [] if more[0] == "-" else [row.split(":") for row in more[0].split()]
    m = greatest(table)
    return line(op, *head, "|", *table, "|", *(x for a, ts, p in rows for x in (int(a), *words(numbers(ts, 10), m), int(p))))


def replaced(op, args, answer, of_sets):
    """Whether a row tells what the rule once was: that terminals behind an end marker are passed over in silence (a string made with fewer slots than the
    first k of its list, a push that gives the string itself), or that a set whose count is 0 is complete. The rows of requests K2 and K5 stand for such."""
    if of_sets:
        return op == "complete" and answer == "true" and numbers(args[1], 16)[0] == 0
    if op not in ("make", "push") or answer.startswith("refused"):
        return False
    if op == "push":
        return answer == args[0]
    return int(answer.split(",")[1], 16) >> 56 & 15 < min(int(args[0]), len(numbers(args[2], 10)))


def width_cases(rows):
    """The widths that the answers to eps and end carry, each once."""
    seen = {}
    for op, *args, answer in rows:
        if op in ("eps", "end"):
            seen.setdefault(int(args[0]), answer if answer.startswith("refused") else str(int(answer.split(",")[1], 16) >> 60))
    return [(line("width", m), seen[m]) for m in sorted(seen)]


def main(vectors, stdin, stdout):
    with open(vectors, encoding="ascii") as f:
        header, *rows = [cells(row) for row in f if row.strip()]
    of_sets, of_tables = header[1] == "k", header[0] == "limit"
    if of_tables:
        op = {"room in bytes": "automata", "rows nonterminal:terminals:production": "mark"}.get(header[3], "needed")
        rows = [[op, *row] for row in rows]
    out, left = [], Counter()
    for op, *args, answer in rows:
        if of_tables:
            out.append((table_case(op, args), answer))
            continue
        if replaced(op, args, answer, of_sets):
            left["replaced by a request (%s)" % op] += 1
            continue
        op = NOW.get(op, op)
        if op == "make" and any(x > 65535 for x in numbers(args[2], 10)):
            left["with a terminal over 65,535 in a made list"] += 1
        else:
            out.append(((set_case if of_sets else string_case)(op, args), answer))
    widths = [] if of_sets or of_tables else width_cases(rows)
    with open(stdin, "w", encoding="ascii") as f:
        f.writelines(case + "\n" for case, _ in out + widths)
    with open(stdout, "w", encoding="ascii") as f:
        f.writelines(answer + "\n" for _, answer in out + widths)
    print("%d rows, %d run, %d widths read off them" % (len(rows), len(out), len(widths)))
    for why, n in sorted(left.items()):
        print("%d left out: %s" % (n, why))


if __name__ == "__main__":
    if len(sys.argv) != 4:
        sys.exit(__doc__)
    main(*sys.argv[1:])
