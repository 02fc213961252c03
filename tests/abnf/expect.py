#!/usr/bin/env python3
"""Works out, by another way than the product's, what `./run abnf` prints for a text of rules that is read.

  expect.py TEXT..

The text is cut into tokens by one regular expression, the tokens into rules, and the rules are numbered as the request says. A text that is refused
ends in an error here: places of refusals are what the stored vectors are for.
"""
import pathlib
import re
import sys

TOKEN = re.compile(rb'(?P<skip>;[\t -~]*|[ \t]|\r\n(?=[ \t]))|(?P<end>\r\n)|(?P<literal>"[ !#-~]+")|(?P<name>[A-Za-z][A-Za-z0-9-]*)|(?P<sign>[=/\[\]])')


def tokens(text):
    at = 0
    while at < len(text):
        m = TOKEN.match(text, at)
        if not m:
            raise SystemExit("not read at %d" % at)
        if m.lastgroup != "skip":
            yield m.lastgroup, m.group(), at
        at = m.end()


def rules(text):
    """Each rule's tokens: its name, "=", and what is behind."""
    rule = []
    for token in tokens(text):
        if token[0] != "end":
            rule.append(token)
        elif rule:
            yield rule
            rule = []


def number(value):
    return bytes([value] if value < 128 else [value % 128 + 128, value // 128])


def grammar(text):
    names, groups, literals, productions = {}, [], [], []

    def read(side, body, at):
        """The alternatives of a side from a token on, to the rule's end or the "]" of a group; the groups within follow."""
        choices, inner = [[]], []
        productions.append((side, choices))
        while at < len(body) and body[at][1] != b"]":
            kind, word, place = body[at]
            at += 1
            if word == b"/":
                choices.append([])
            elif word == b"[":
                groups.append(place)
                group = ("group", len(groups) - 1)
                choices[-1].append(group)
                at = read(group, body, at)
            elif kind == "name":
                names.setdefault(word.lower(), (word, place))
                choices[-1].append(("name", word.lower()))
            else:
                if word.lower() not in [w.lower() for w in literals]:
                    literals.append(word)
                choices[-1].append(("literal", [w.lower() for w in literals].index(word.lower())))
        if side[0] == "group":
            choices.append([])
            at += 1
        return at

    for (_, name, place), _, *body in rules(text):
        names.setdefault(name.lower(), (name, place))
        assert read(("name", name.lower()), body, 0) == len(body)
    order = sorted(names)
    code = {"name": lambda x: 2 * order.index(x), "group": lambda g: 2 * (len(order) + g), "literal": lambda i: 2 * (i + 5) + 1}
    count = sum(len(choices) for _, choices in productions)
    numbers = [len(order) + len(groups), len(literals), order.index(productions[0][0][1]), count]
    for (kind, x), choices in productions:
        for choice in choices:
            numbers += [code[kind](x) // 2, len(choice)] + [code[k](y) for k, y in choice]
    lines = [b"".join(map(number, numbers)).hex()]
    lines += ["nonterminal %d %s" % (i, names[x][0].decode()) for i, x in enumerate(order)]
    lines += ["nonterminal %d [ at %d" % (len(order) + g, place) for g, place in enumerate(groups)]
    lines += ["terminal %d %s" % (i + 5, w.decode()) for i, w in enumerate(literals)]
    return lines


if __name__ == "__main__":
    if len(sys.argv) < 2:
        sys.exit(__doc__)
    for path in sys.argv[1:]:
        print("\n".join(grammar(pathlib.Path(path).read_bytes())))
