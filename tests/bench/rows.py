#!/usr/bin/env python3
"""Writes a table whose predictions are many: S -> y A B for each of 24 y, each with a B of its own; A -> a for each of 40 a, or the first a and an x;
B -> b or b', its own two. A needs two terminals ahead, so that every a comes with every b: 1,993 rows in all. Another number of y may be named."""
import sys

y = int(sys.argv[1]) if len(sys.argv) > 1 else 24
a = 40


def terminal(i):
    return 2 * (5 + i) + 1


right = [(0, [terminal(j), 2, 2 * (2 + j)]) for j in range(y)]
right += [(1, [terminal(y + i)]) for i in range(a)] + [(1, [terminal(y), terminal(y + a)])]
right += [(2 + j, [terminal(y + a + 1 + 2 * j + b)]) for j in range(y) for b in range(2)]
numbers = [2 + y, y + a + 1 + 2 * y, 0, len(right)]
for left, symbols in right:
    numbers += [left, len(symbols), *symbols]
sys.stdout.buffer.write(b"".join(bytes([n % 128 + 128, n // 128] if n > 127 else [n]) for n in numbers))
