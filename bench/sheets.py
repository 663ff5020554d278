"""Sheets for the benchmark: reading one, and making load sheets by request (l)'s rule and random ones, all from fixed seeds."""
import random


def record(kind, *payload):
    return bytes([len(payload), 0, kind, 0, *payload])


class Sheet:
    """A sheet's records as lists, fills left out; only for accepted sheets."""

    def __init__(self, data):
        self.bounds, self.symbols, self.terms, self.literals, self.total = [], [], [], [], 0
        at = 0
        while at < len(data):
            length, kind = data[at], data[at + 2]
            payload = list(data[at + 4 : at + 4 + length])
            at += 4 + length
            if kind == 1:
                self.bounds.append(payload)
            elif kind == 2:
                self.symbols.append(payload)
            elif kind == 3:
                self.terms.append(payload)
            elif kind in (4, 5):
                self.literals.append((kind == 4, *payload))
            elif kind == 6:
                self.total = payload[0]

    def sort(self, term):
        return self.symbols[self.terms[term][0]][0]


def load_sheet(state, k, n, m):
    """A load sheet: a hidden table and hidden codes are drawn, then statements that they satisfy."""

    def draw(choices):
        nonlocal state
        state = (state * 1664525 + 1013904223) % 2**32
        return (state >> 16) % choices

    table = [draw(k) for _ in range(k)]
    codes = [draw(k) for _ in range(n)]
    codes += [table[c] for c in codes]
    out = record(1, 1, k) + record(2, 0) * n + record(2, 0, 0)
    out += b"".join(record(3, i) for i in range(n)) + b"".join(record(3, n, i) for i in range(n))
    for _ in range(m):
        a = draw(2 * n)
        b = draw(2 * n)
        out += record(4 if codes[a] == codes[b] else 5, a, b)
    return out + record(6, k)


def deep_sheet():
    """A deep search: 105 cells of a table of 12 rows and 11 columns are free, and so are decided one after the other."""
    rows, columns = 12, 11
    out = record(1, rows, 16) + record(1, columns, 16) + record(1, 2, 16)
    out += record(2, 0) * rows + record(2, 1) * columns + record(2, 2, 0, 1)
    out += b"".join(record(3, i) for i in range(rows + columns))
    cells = [(i, rows + j) for i in range(rows) for j in range(columns)][: 128 - rows - columns]
    out += b"".join(record(3, rows + columns, i, j) for i, j in cells)
    out += b"".join(record(5, i, j) for i in range(rows) for j in range(i))
    out += b"".join(record(5, rows + i, rows + j) for i in range(columns) for j in range(i))
    return out + record(6, 48)


def trade_sheet(*products):
    """Sizes that trade off, in a deep search. For each n of the products, n pairs of codes of two sorts differ, so that their sizes multiply to n at
    least: the first sort with the last, the second with the last but one, and so on. Further terms, cells over the first results, are free."""
    last = 2 * len(products)
    symbols, terms, literals = [], [], []
    for s, n in enumerate(products):
        at = len(terms)
        terms += [[len(symbols) + i] for i in range(2 * n)]
        symbols += [[s]] * n + [[last - 1 - s]] * n
        terms += [[len(symbols), at + i, at + n + i] for i in range(n)]
        symbols.append([last, s, last - 1 - s])
        literals += [(at + 2 * n + i, at + 2 * n + j) for i in range(n) for j in range(i)]
    while len(terms) < 128:
        terms += [[len(symbols), 2 * products[0] + i] for i in range(products[0])]
        symbols.append([last, last])
    out = record(1, 1, 16) * last + record(1, 16, 16) + b"".join(record(2, *s) for s in symbols)
    return out + b"".join(record(3, *t) for t in terms[:128]) + b"".join(record(5, a, b) for a, b in literals) + record(6, 128)


def random_sheet(seed, sorts, terms, literals, differ):
    """A random sheet: constants, unary and binary symbols over random sorts, terms over earlier terms, statements of one sort."""
    rng = random.Random(seed)
    symbols = [[s] for s in range(sorts)]
    for _ in range(min(62 - sorts, 2 + terms // 6)):
        symbols.append([rng.randrange(sorts) for _ in range(rng.choice([1, 2, 2, 3]))])
    made, seen = [], set()
    for _ in range(40 * terms):
        if len(made) == terms:
            break
        f = rng.randrange(len(symbols))
        args = []
        for s in symbols[f][1:]:
            of_sort = [i for i, t in enumerate(made) if symbols[t[0]][0] == s]
            if not of_sort:
                break
            args.append(rng.choice(of_sort))
        if len(args) == len(symbols[f]) - 1 and (f, *args) not in seen:
            seen.add((f, *args))
            made.append([f, *args])
    out = b"".join(record(1, 1, 16) for _ in range(sorts)) + b"".join(record(2, *s) for s in symbols) + b"".join(record(3, *t) for t in made)
    for _ in range(literals):
        a = rng.randrange(len(made))
        mates = [i for i, t in enumerate(made) if symbols[t[0]][0] == symbols[made[a][0]][0]]
        out += record(5 if rng.random() < differ else 4, a, rng.choice(mates))
    return out + record(6, min(128, 16 * sorts))
