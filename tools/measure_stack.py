#!/usr/bin/env python3
"""Reads off the compiled static library how much stack each exported call takes.

    bindings/archive && tools/measure_stack.py target/staticlib/libexports.a

For each function the disassembly tells its own frame (saved registers, locals, the return address of whoever calls it) and which functions it calls.
A call's stack is then the largest sum along a chain of calls; a function with more than one way in is counted with the sum of their frames. A function
that calls itself is counted as often as it is deep: DEPTHS has how deep each goes, and why. An objdump for x86-64 must be on the path, as objdump or x86_64-linux-gnu-objdump.
"""
import re
import shutil
import subprocess
import sys


# the walk for left corners goes at most n + 1 deep for n nonterminals, of which there are at most 128, and that is proved; a list of at most 2,048 strings
# is halved until one or none is left
DEPTHS = {"cfg::accept::visit_corners": 129, "trees::order::sort": 12}


def disassembly(archive):
    tool = shutil.which("x86_64-linux-gnu-objdump") or shutil.which("objdump")
    if not tool:
        sys.exit("no objdump on the path")
    return subprocess.run([tool, "-dr", "--no-show-raw-insn", archive], check=True, capture_output=True, text=True).stdout.splitlines()


def functions(lines):
    """Each function's frame in bytes, and the functions it calls."""
    frames, calls, name = {}, {}, None
    for before_last, above, line in zip(["", "", *lines], ["", *lines], lines):
        head = re.match(r"[0-9a-f]+ <(.+)>:$", line)
        if head:
            name = head[1]
            frames[name], calls[name] = 8, set()
            continue
        if name is None:
            continue
        if re.search(r"\tpush ", line):
            frames[name] += 8
        # a large frame is taken step by step, in a loop to an end that is told before it; the step stands right behind that end
        end = re.search(r"\tmov +%rsp,%r11$", before_last) and re.search(r"\tsub +\$0x([0-9a-f]+),%r11$", above)
        local = re.search(r"\tsub +\$0x([0-9a-f]+),%rsp", line)
        if local:
            frames[name] += int((end or local)[1], 16)
        # a call, or a jump to another function, by its relocation; a call of itself by its label
        to = re.search(r"R_X86_64_(?:PLT32|PC32|GOTPCREL\w*)\t(?:\.text\.)?([\w.$:]+?)(?:[-+]0x[0-9a-f]+)?$", line) or re.search(r"\tcall +[0-9a-f]+ <([\w.$:]+)>$", line)
        if to:
            calls[name].add(to[1])
    return frames, calls


def cycles(calls):
    """Groups of functions that call each other: strongly connected, by two walks."""
    order, seen = [], set()

    def walk(f, edges, out):
        stack = [(f, iter(sorted(edges.get(f, ()))))]
        seen.add(f)
        while stack:
            g, rest = stack[-1]
            for h in rest:
                if h in edges and h not in seen:
                    seen.add(h)
                    stack.append((h, iter(sorted(edges[h]))))
                    break
            else:
                out.append(g)
                stack.pop()

    for f in sorted(calls):
        if f not in seen:
            walk(f, calls, order)
    back = {f: set() for f in calls}
    for f in calls:
        for g in calls[f]:
            if g in back:
                back[g].add(f)
    seen.clear()
    groups = []
    for f in reversed(order):
        if f not in seen:
            group = []
            walk(f, back, group)
            if len(group) > 1 or f in calls[f]:
                groups.append(sorted(group))
    return groups


def main():
    if len(sys.argv) != 2:
        sys.exit(__doc__)
    frames, calls = functions(disassembly(sys.argv[1]))
    groups = cycles(calls)
    group_of = {f: i for i, group in enumerate(groups) for f in group}
    deepest = {}

    def depth(f):
        if f not in frames:
            return 0, ()
        if f not in deepest:
            # a cycle is one function with all its frames and all its calls
            own = groups[group_of[f]] if f in group_of else [f]
            below = [depth(g) for h in own for g in calls[h] if g not in own]
            size, chain = max(below, default=(0, ()))
            frame = sum(frames[h] * DEPTHS.get(h, 1) for h in own)
            deepest[f] = (size + frame, (f"{' + '.join(own)} {frame}",) + chain)
        return deepest[f]

    sys.setrecursionlimit(10000)
    for f in sorted(frames):
        if f.startswith("jomankitu_"):
            size, chain = depth(f)
            print(f"{f}: {size} bytes: " + ", ".join(chain))
    for f in (f for group in groups for f in group):
        print(f"{f}: {frames[f]} bytes, " + (f"counted {DEPTHS[f]} times" if f in DEPTHS else "its depth is not known"))


main()
