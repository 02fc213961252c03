#!/usr/bin/env python3
"""Compares a listing program with the Rust's own sets and with rules.py, on inputs made from seeds.

  compare.py --listing COMMAND [--accepted N] [--tight N] [--damaged N] [--seeds S..] [--oracle PROGRAM] [--sample FOLDER]
  compare.py --calls COMMAND ..

COMMAND is run by the shell's rules for words, once for each input (--listing) or once for five hundred (--calls, for a program that reads cases as
replay_calls does). For each seed, N inputs of each kind are made:

  --accepted   random small grammars, of which those are kept that rules.py accepts. Lines N, P, F and Q must be, as sets, those of the Rust, and
               the whole text must be that of rules.py.
  --tight      accepted grammars whose room c is the least that serves, or one less, which must be refused 11.
  --damaged    such inputs with bytes changed, cut or added, counts at the limits, and grammars as they come. One line `refused R` with R as
               rules.py has it, or a whole listing, and never another exit than 0. The Rust is asked where rules.py accepts.

Printed are the counts by answer and, for each kind of difference, how many inputs show it and the shortest of them.
--sample FOLDER keeps the first hundred accepted inputs of the first seed as r00.in to r99.in, and beside each the answer as NAME.out: the listing
program's first line and, from the Rust, all others.
"""
import argparse
import collections
import pathlib
import random
import shlex
import subprocess
import sys
import time

import rules

HERE = pathlib.Path(__file__).resolve().parent
LIMIT = 120  # seconds for a run on one input


# Inputs.

def number(value):
    return bytes([value]) if value < 128 else bytes([value % 128 + 128, value // 128])


def written(k, c, n, t, start, productions):
    numbers = [k, c, n, t, start, len(productions)]
    for left, symbols in productions:
        numbers += [left, len(symbols), *symbols]
    return b"".join(map(number, numbers))


def greatest_room(n, productions):
    q = sum(s % 2 == 0 for _, symbols in productions for s in symbols)
    return min(1024, (rules.WORDS // max(2 * n + len(productions) + q, 2 * n + 4) - 1) // 2)


def grammar(r, any_front=0.02):
    """A small grammar: most are productive and not left-recursive, since a nonterminal in front is nearly always one of higher rank."""
    n = r.choice([1, 2, 2, 3, 3, 4, 5, 6, 8, 12])
    t = r.choice([0, 1, 2, 2, 3, 3, 4, 5, 6, 9, 10, 25, 57, 121, 249, r.randrange(4090)])
    terminals = r.sample(range(5, t + 5), min(t, r.randint(1, 6)))
    rank = r.sample(range(n), n)
    most = r.choice([2, 3, 3, 4, 5])
    share = r.choice([0.3, 0.5, 0.5, 0.7])

    def symbols(left):
        result = []
        for _ in range(r.randint(r.randint(0, 1), most)):
            if terminals and r.random() < share:
                result.append(2 * r.choice(terminals) + 1)
                continue
            front = all(s % 2 == 0 for s in result)
            higher = [i for i in range(n) if rank[i] > rank[left]]
            if not front or r.random() < any_front:
                result.append(2 * r.randrange(n))
            elif higher:
                result.append(2 * r.choice(higher))
        return result

    lefts = list(range(n)) + [r.randrange(n) for _ in range(r.randint(0, n + 4))]
    if r.random() < 0.5:
        r.shuffle(lefts)
    productions = [(left, symbols(left)) for left in lefts]
    k = r.choice([1, 1, 2, 2, 2, 3, 3, 3, 4, 4, 5, 6] if r.random() < 0.97 else [7, 8, 9, 10])
    room = greatest_room(n, productions)
    start = rank.index(0) if r.random() < 0.7 else r.randrange(n)
    return k, room if r.random() < 0.7 else r.randint(1, room), n, t, start, productions


def refused(data):
    return rules.answer(data).startswith("refused")


def accepted(r):
    while True:
        data = written(*grammar(r))
        if not refused(data):
            return data


def tight(r):
    """An accepted grammar with the least room that serves it, or with a member less."""
    while True:
        k, c, *table = grammar(r)
        if refused(written(k, c, *table)):
            continue
        none = 0
        while c - none > 1:
            middle = (c + none) // 2
            none, c = (middle, c) if refused(written(k, middle, *table)) else (none, middle)
        if c > 1:
            return written(k, c - r.randrange(2), *table)


def edge(r):
    """Counts at their limits or one past them, in a table that is otherwise in order."""
    kind = r.randrange(6)
    over = r.choice([0, 0, 1, 2])
    n, t, lengths = r.randint(1, 3), r.randint(1, 3), [1]
    if kind == 0:
        n = 126 + over + r.randint(0, 1)
    elif kind == 1:
        t = 4088 + over
    elif kind == 2:
        lengths = [0] * (511 + over)
    elif kind == 3:
        lengths = [63 + over]
    elif kind == 4:
        lengths = [64] * 63 + [r.randint(62, 64), 0, over]
    else:
        lengths = [0] * r.randint(1, 4)
    productions = [(i % n, [2 * r.randrange(5, t + 5) + 1 for _ in range(x)]) for i, x in enumerate(lengths)]
    if r.random() < 0.5:
        productions += [(i, []) for i in range(n)]
    room = max(1, greatest_room(n, productions) + r.choice([-1, 0, 0, 1]))
    return written(r.choice([1, 2, 10]), room, n, t, r.choice([0, n - 1, n]), productions)


def damaged(r):
    kind = r.randrange(14)
    if kind == 0:
        return edge(r)
    if kind in (1, 2, 3):
        return written(*grammar(r, 0.2))
    if kind == 4:
        k, c, *table = grammar(r)
        if r.random() < 0.3:
            k = r.choice([0, 11, 127, 128, 300])
        return written(r.choice([k, 10]), r.choice([0, 1, 2, c, c + 1, c + 2, 1024, 1025, 3000]), *table)
    if kind == 5:
        return bytes(r.randrange(256) if r.random() < 0.3 else r.randrange(16) for _ in range(r.randint(0, 30)))
    data = bytearray(accepted(r))
    if kind == 6:
        return bytes(data[:r.randrange(len(data))])
    if kind == 7:
        more = r.choice([1, 1, 2, 3, 9, 16384 - len(data), 16385 - len(data), 20000])
        return bytes(data) + bytes(r.randrange(256) for _ in range(more))
    for _ in range(r.choice([1, 1, 1, 2, 3])):
        place = r.randrange(len(data) or 1)
        if kind == 8:
            data.insert(place, r.randrange(256))
        elif kind == 9 and data:
            del data[place]
        elif kind == 10 and data:
            data[place:place + 1] = bytes([data[place] | 128, r.choice([0, 0, 1, 127, 128, 255])])
        elif kind == 11 and data:
            data[place] = max(0, min(255, data[place] + r.choice([-2, -1, 1, 2])))
        elif data:
            data[place] ^= 1 << r.randrange(8) if kind == 12 else r.randrange(1, 256)
    return bytes(data)


# Answers.

def each(command, inputs):
    for data in inputs:
        try:
            done = subprocess.run(command, input=data, capture_output=True, timeout=LIMIT)
            yield done.stdout.decode("ascii", "replace") + (f"exit {done.returncode}\n" if done.returncode else "")
        except subprocess.TimeoutExpired:
            yield f"no answer in {LIMIT} seconds\n"


def calls(command, inputs):
    """By a program that reads cases: what an input has beyond what a listing reads is left out, as it is where cases are stored."""
    for i in range(0, len(inputs), 500):
        some = [data[:rules.MOST] for data in inputs[i:i + 500]]
        cases = b"".join(b"%03d %04x\n" % (j, len(data)) + data for j, data in enumerate(some))
        done = subprocess.run(command, input=cases, capture_output=True)
        texts = collections.defaultdict(str)
        name = None
        for text in done.stdout.decode("ascii", "replace").splitlines(keepends=True):
            if text.startswith("case "):
                name = int(text[5:])
            else:
                texts[name] += text
        if done.returncode:
            texts[name] += f"exit {done.returncode}\n"
        yield from (texts[j] for j in range(len(some)))


def rust(program, inputs):
    """The Rust's texts, each with a first line of the Rust's own counts."""
    joined = b"".join(len(data).to_bytes(4, "little") + data for data in inputs)
    done = subprocess.run([program, "--batch", "--counts"], input=joined, capture_output=True, check=True)
    texts = done.stdout.decode("ascii").split("=\n")[:-1]
    assert len(texts) == len(inputs)
    return texts


def sets(text):
    """Lines N, P, F and Q as sets by their heads."""
    result = {}
    for text_line in text.splitlines():
        head, colon, members = text_line.partition(":")
        if head[:2] in ("N ", "P ", "F ", "Q ") and colon and head not in result:
            found = members.strip(" []").split("] [") if members else []
            result[head] = collections.Counter(found)
        elif not text_line.startswith("k "):
            result[text_line] = None
    return result


def behind(text):
    """What stands behind the first line."""
    return text.partition("\n")[2]


class Tally:
    """Counts, and the inputs that show a difference."""

    def __init__(self):
        self.counts = collections.Counter()
        self.inputs = set()
        self.differences = collections.defaultdict(list)

    def differ(self, kind, data, ours, other):
        self.differences[kind].append((len(data), data, ours, other))

    def take(self, data, ours, by_rules, by_rust):
        self.inputs.add(data)
        refused = by_rules.startswith("refused")
        self.counts[by_rules.strip() if refused else "listing"] += 1
        if ours != by_rules:
            self.differ("ours and the rules", data, ours, by_rules)
        if by_rust is None:
            return
        self.counts["compared with the Rust"] += 1
        self.counts["lines compared"] += by_rust.count("\n") - 1
        if sets(ours) != sets(by_rust):
            self.differ("ours and the Rust, as sets", data, behind(ours), behind(by_rust))
        elif behind(ours) != behind(by_rust):
            self.differ("ours and the Rust, in order only", data, behind(ours), behind(by_rust))
        its, _, twice = by_rust.partition("\n")[0].partition(" twice ")
        (first, _, follow), (its_first, _, its_follow) = (text.partition("\n")[0].partition(" follow ") for text in (ours, its))
        self.counts["FIRST rounds as the Rust's iterations"] += first == its_first
        self.counts["FOLLOW rounds as the Rust's iterations"] += follow == its_follow
        self.counts["the Rust holds a string twice in some set"] += twice != "0"

    def show(self):
        print(f"  different inputs: {len(self.inputs)}")
        for name, count in sorted(self.counts.items(), key=lambda x: (x[0].startswith("refused"), len(x[0]), x[0])):
            print(f"  {name}: {count}")
        for kind, found in self.differences.items():
            _, data, ours, other = min(found)
            print(f"  DIFFERENCE, {kind}: {len(found)} inputs, the shortest {data[:200].hex(' ')}")
            for name, one, two in ("ours ", ours, other), ("other", other, ours):
                print("".join(f"    {name}  {x}\n" for x in one.splitlines() if x not in two.splitlines())[:3000], end="")
        if not self.differences:
            print("  no difference")
        sys.stdout.flush()


def keep(folder, inputs, ours, by_rust):
    folder = pathlib.Path(folder)
    folder.mkdir(parents=True, exist_ok=True)
    for i, data in enumerate(inputs[:100]):
        path = folder / f"r{i:02}.in"
        path.write_bytes(data)
        path.with_suffix(".out").write_text(ours[i].partition("\n")[0] + "\n" + behind(by_rust[i]))


def run(kind, make, options, seed, count, tally):
    r = random.Random(f"{kind} {seed}")
    inputs = [make(r) for _ in range(count)]
    by_rules = [rules.answer(data) for data in inputs]
    asked = [i for i in range(count) if not by_rules[i].startswith("refused")]
    by_rust = dict(zip(asked, rust(options.oracle, [inputs[i] for i in asked])))
    command = shlex.split(options.listing or options.calls)
    ours = list((each if options.listing else calls)(command, inputs))
    for i, data in enumerate(inputs):
        tally.take(data, ours[i], by_rules[i], by_rust.get(i))
    if options.sample and kind == "accepted" and seed == options.seeds[0]:
        keep(options.sample, inputs, ours, [by_rust[i] for i in range(count)])


def main():
    parser = argparse.ArgumentParser()
    program = parser.add_mutually_exclusive_group(required=True)
    program.add_argument("--listing")
    program.add_argument("--calls")
    parser.add_argument("--oracle", default=str(HERE / "target/release/oracle"))
    for kind in "--accepted", "--tight", "--damaged":
        parser.add_argument(kind, type=int, default=0)
    parser.add_argument("--seeds", type=int, nargs="+", default=[1])
    parser.add_argument("--sample")
    options = parser.parse_args()
    failed = False
    for kind, make in ("accepted", accepted), ("tight", tight), ("damaged", damaged):
        count, tally, begun = getattr(options, kind), Tally(), time.time()
        if count == 0:
            continue
        for seed in options.seeds:
            run(kind, make, options, seed, count, tally)
        print(f"{kind}: {count} for each seed of {' '.join(map(str, options.seeds))}, {time.time() - begun:.0f} s")
        tally.show()
        failed = failed or bool(tally.differences)
    sys.exit(failed)


if __name__ == "__main__":
    main()
