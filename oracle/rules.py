"""The rules of the listing, read a second time: a plain and slow Python program that shares no code with ours or with the Rust.

`answer(data)` is the whole text that the listing program must print for the input `data`. A string is a tuple of terminals, the empty tuple is ε,
and a set is a Python set; the limits, the refusals and their order are those of docs/SPECIFICATION.md.
"""
MOST = 16384  # bytes that are read
WORDS = 4096  # words lent for each of the two buffers


class Refused(Exception):
    """Carries the refusal's number."""


class Reader:
    def __init__(self, data):
        self.data, self.at = data, 0

    def number(self):
        groups = self.data[self.at:self.at + 2]
        if not groups:
            raise Refused(3)
        if groups[0] < 128:
            self.at += 1
            return groups[0]
        if len(groups) == 1:
            raise Refused(3)
        if groups[1] >= 128 or groups[1] == 0:
            raise Refused(4)
        self.at += 2
        return groups[0] - 128 + 128 * groups[1]

    def within(self, least, most, refusal):
        value = self.number()
        if not least <= value <= most:
            raise Refused(refusal)
        return value


class Table:
    """n, t, start and the productions: a left side and symbols as they are written, 2i or 2x + 1."""

    def __init__(self, data):
        reader = Reader(data)
        self.n = reader.within(1, 128, 5)
        self.t = reader.within(0, 4089, 5)
        self.start = reader.within(0, self.n - 1, 6)
        self.productions, total = [], 0
        for _ in range(reader.within(0, 512, 5)):
            left = reader.within(0, self.n - 1, 6)
            length = reader.within(0, 64, 5)
            total += length
            if total > 4096:
                raise Refused(5)
            self.productions.append((left, [self.symbol(reader) for _ in range(length)]))
        if reader.at != len(data):
            raise Refused(7)

    def symbol(self, reader):
        written = reader.number()
        number = written // 2
        if not (5 <= number <= self.t + 4 if written % 2 else number < self.n):
            raise Refused(6)
        return written

    def least(self, holds):
        """The least set of nonterminals that has every left side whose symbols all hold."""
        found, before = set(), None
        while found != before:
            before = set(found)
            for left, symbols in self.productions:
                if all(holds(s, found) for s in symbols):
                    found.add(left)
        return found

    def accept(self):
        if len(self.least(lambda s, found: s % 2 == 1 or s // 2 in found)) < self.n:
            raise Refused(8)
        nullable = self.least(lambda s, found: s % 2 == 0 and s // 2 in found)
        corners = {a: set() for a in range(self.n)}
        for left, symbols in self.productions:
            for s in symbols:
                if s % 2 == 1:
                    break
                corners[left].add(s // 2)
                if s // 2 not in nullable:
                    break
        for a in corners:
            reached, todo = set(), list(corners[a])
            while todo:
                b = todo.pop()
                if b not in reached:
                    reached.add(b)
                    todo += corners[b]
            if a in reached:
                raise Refused(9)

    def places(self):
        """Every nonterminal of a right side: its production, its place from 1, its left side, itself, the symbols behind it."""
        for p, (left, symbols) in enumerate(self.productions):
            for i, s in enumerate(symbols):
                if s % 2 == 0:
                    yield p, i + 1, left, s // 2, symbols[i + 1:]


def complete(x, k):
    return len(x) >= k or (x != () and x[-1] == 0)


class Work:
    """FIRST and FOLLOW of an accepted table at k, every set within the room c."""

    def __init__(self, table, k, c):
        self.table, self.c = table, c
        n = table.n
        self.rounds, self.first = [], [{()}] * n
        for level in range(1, k + 1):
            self.rounds.append(self.level(level))
        self.productions = [self.parts(symbols, k) for _, symbols in table.productions]
        self.follow = [{(0,)} if i == table.start else set() for i in range(n)]
        self.follow_rounds, added = 0, True
        while added:
            added = False
            for _, _, left, target, rest in table.places():
                new = self.join(self.parts(rest, k), self.follow[left], k)
                added = added or not new <= self.follow[target]
                self.follow[target] = self.fits(self.follow[target] | new)
            self.follow_rounds += 1
        self.positions = [(p, i, self.join(self.parts(rest, k), self.follow[left], k)) for p, i, left, _, rest in table.places()]

    def fits(self, members):
        if len(members) > self.c:
            raise Refused(11)
        return members

    def join(self, xs, ys, k):
        stay = {x for x in xs if complete(x, k)}
        return self.fits(stay | {(x + y)[:k] for x in xs - stay for y in ys})

    def parts(self, symbols, k):
        result, i = {()}, 0
        while i < len(symbols):
            if symbols[i] % 2 == 0:
                part, i = self.first[symbols[i] // 2], i + 1
            else:
                run = i
                while i < len(symbols) and symbols[i] % 2 == 1:
                    i += 1
                part = {tuple(s // 2 for s in symbols[run:i])[:k]}
            result = self.join(result, part, k)
        return result

    def level(self, k):
        """Runs the rounds of one level and gives their count."""
        for count in range(1, self.table.n + 2):
            new = [set() for _ in range(self.table.n)]
            for left, symbols in self.table.productions:
                new[left] = self.fits(new[left] | self.parts(symbols, k))
            same, self.first = new == self.first, new
            if same:
                return count
        raise Refused(12)


def line(head, members):
    """Members in order: by length, then the last slot weighing most; ε is the greatest of length 1."""
    def key(x):
        return (1, (65535,)) if x == () else (len(x), x[::-1])
    return head + ":" + "".join(" [" + (" ".join(map(str, x)) or "e") + "]" for x in sorted(members, key=key)) + "\n"


def listing(data):
    reader = Reader(data[:MOST])
    k, c = reader.number(), reader.number()
    if not 1 <= k <= 10:
        raise Refused(1)
    if not 1 <= c <= 1024:
        raise Refused(2)
    table = Table(reader.data[reader.at:])
    table.accept()
    n, p, q = table.n, len(table.productions), len(list(table.places()))
    if max(2 * n + p + q, 2 * n + 4) * (2 * c + 1) > WORDS:
        raise Refused(10)
    work = Work(table, k, c)
    text = f"k {k} width {(table.t + 6).bit_length()} rounds {' '.join(map(str, work.rounds))} follow {work.follow_rounds}\n"
    for letter, sets in ("N", work.first), ("P", work.productions), ("F", work.follow):
        text += "".join(line(f"{letter} {i}", s) for i, s in enumerate(sets))
    return text + "".join(line(f"Q {p} {i}", s) for p, i, s in work.positions)


def answer(data):
    try:
        return listing(data)
    except Refused as refusal:
        return f"refused {refusal}\n"
