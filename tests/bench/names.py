#!/usr/bin/env python3
"""Prints the text of rules that is dearest to read: 32,768 bytes, 128 names of 64 bytes that differ in their last two only, each defined once and used
twice, and a comment for the rest."""
import sys

names = ["n" * 62 + "%c%c" % (97 + i // 16, 97 + i % 16) for i in range(128)]
text = "".join(f"{name} = {names[(i + 1) % 128]} {names[(i + 2) % 128]}\r\n" for i, name in enumerate(names))
sys.stdout.write(text + ";" + "." * (32768 - len(text) - 3) + "\r\n")
