#!/usr/bin/env python3
"""Packs folders of listing cases into what replay_calls reads and what it must print.

  pack.py CRATE FOLDER..

A folder has an input NAME.in and its listing NAME.out for each case, NAME three characters. CRATE (crates/replay_calls) gets two files: `stdin`, for each case in the order of names a line `NAME LLLL`, the length in four hexadecimal digits, and then so many bytes; and `stdout`,
for each case a line `case NAME` and the listing as its folder has it. Nothing of ours is run and no listing is worked out here.
The listing program reads no more than 16,384 bytes: what an input has beyond them is left out, and how many inputs that meets is printed.
"""
import pathlib
import sys

MOST = 16384


def main(crate, *folders):
    inputs = [path for folder in folders for path in sorted(pathlib.Path(folder).glob("*.in"))]
    stdin, stdout, cut = b"", b"", 0
    for path in inputs:
        name = path.stem
        if len(name) != 3:
            sys.exit(f"the name of {path.name} is not of three characters")
        whole = path.read_bytes()
        cut += len(whole) > MOST
        data = whole[:MOST]
        stdin += b"%s %04x\n" % (name.encode("ascii"), len(data)) + data
        stdout += b"case %s\n" % name.encode("ascii") + path.with_suffix(".out").read_bytes()
    pathlib.Path(crate, "stdin").write_bytes(stdin)
    pathlib.Path(crate, "stdout").write_bytes(stdout)
    print(f"{len(inputs)} cases, {cut} cut to {MOST} bytes")


if __name__ == "__main__":
    main(*sys.argv[1:])
