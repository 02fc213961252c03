#!/usr/bin/env python3
"""Packs a file of vectors and a folder of stored texts into what replay_abnf reads and what it must print.

  pack.py CRATE VECTORS TEXTS

VECTORS has a row a line: text in hexadecimal | bytes lent | table or refusal, its first line names the columns. TEXTS has NAME.abnf with its answer,
NAME.out, whose first line is the table. CRATE (crates/replay_abnf) gets two files: `stdin`, for each text a line of the bytes lent (4,096 for a stored
one) and the text's length, four hexadecimal digits each, and then the text; and `stdout`, the answers as they stand. Nothing of ours is run and no
answer is worked out here.
"""
import pathlib
import sys


def main(crate, vectors, texts):
    with open(vectors, encoding="ascii") as f:
        rows = [[cell.strip() for cell in row.split("|")] for row in list(f)[1:]]
    cases = [(bytes.fromhex(text), int(room), answer) for text, room, answer in rows]
    for path in sorted(pathlib.Path(texts).glob("*.abnf")):
        cases.append((path.read_bytes(), 4096, path.with_suffix(".out").read_text("ascii").split("\n")[0]))
    stdin, stdout = b"", b""
    for data, room, answer in cases:
        stdin += b"%04x %04x\n" % (room, len(data)) + data
        stdout += answer.encode("ascii") + b"\n"
    pathlib.Path(crate, "stdin").write_bytes(stdin)
    pathlib.Path(crate, "stdout").write_bytes(stdout)
    print("%d texts" % len(cases))


if __name__ == "__main__":
    if len(sys.argv) != 4:
        sys.exit(__doc__)
    main(*sys.argv[1:])
