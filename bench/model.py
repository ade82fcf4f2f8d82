#!/usr/bin/env python3
"""What an accepted grid program gives, as docs/PROGRAMS.md says it: a second reading of that page, line after line and word by word.

    bench/model.py FILE            prints what `gridtool run FILE` prints
    bench/model.py --saves FILE    prints each saved file, too: a line `== NAME`, and then its text
    bench/model.py --check FILE    prints what `gridtool check FILE` prints

It reads accepted programs only; refused.py, which stands on it, says which line of a program is refused, and why.
"""
import sys


def wrapped(value):
    """The number of 32 bits that a whole number is modulo 2^32."""
    return (value + 2**31) % 2**32 - 2**31


class Grid:
    """Ranks by rows of processes."""

    def __init__(self, rows, columns, ranks):
        self.rows, self.columns, self.ranks = rows, columns, ranks

    def rank(self, p, q):
        return self.ranks[p * self.columns + q]

    def scope(self, word):
        """The processes of a scope, in its order."""
        if word.upper() == "A":
            return [(p, q) for p in range(self.rows) for q in range(self.columns)]
        line = int(word[1:])
        if word[0].upper() == "R":
            return [(line, q) for q in range(self.columns)]
        return [(p, line) for p in range(self.rows)]


class Array:
    """For each rank its rows (the leading dimension), its columns, and its words by columns."""

    def __init__(self, name, sizes):
        self.name = name
        self.sizes = sizes
        self.words = [[0] * (rows * columns) for rows, columns in sizes]
        self.spread = None

    def place(self, rank, i, j):
        return j * self.sizes[rank][0] + i


class Spread:
    """How a matrix is spread over a grid in blocks: elements count from 0."""

    def __init__(self, grid, m, n, mb, nb, rsrc, csrc):
        self.grid, self.m, self.n, self.mb, self.nb, self.rsrc, self.csrc = grid, m, n, mb, nb, rsrc, csrc

    def row_owner(self, i):
        return (self.rsrc + i // self.mb) % self.grid.rows

    def column_owner(self, j):
        return (self.csrc + j // self.nb) % self.grid.columns

    def local_rows(self, p):
        return [i for i in range(self.m) if self.row_owner(i) == p]

    def local_columns(self, q):
        return [j for j in range(self.n) if self.column_owner(j) == q]

    def home(self, i, j):
        """The process of an element, and its row and column there."""
        p, q = self.row_owner(i), self.column_owner(j)
        return p, q, self.local_rows(p).index(i), self.local_columns(q).index(j)


def selected(m, n, shape):
    """The elements of a part that its shape selects, by columns."""
    uplo, diag = shape or (None, None)
    inside = {
        None: lambda i, j: True,
        ("U", "N"): lambda i, j: i <= j + max(m - n, 0),
        ("U", "U"): lambda i, j: i < j + max(m - n, 0),
        ("L", "N"): lambda i, j: i >= j - max(n - m, 0),
        ("L", "U"): lambda i, j: i > j - max(n - m, 0),
    }[None if uplo is None else (uplo.upper(), diag.upper())]
    return [(i, j) for j in range(n) for i in range(m) if inside(i, j)]


def fold(kind, words):
    """The word that a combine leaves, and the position of the member that had it."""
    if kind == "SUM":
        return wrapped(sum(words)), 0
    best = max(abs(w) for w in words) if kind == "AMX" else min(abs(w) for w in words)
    at = [abs(w) for w in words].index(best)
    return words[at], at


class Program:
    def __init__(self, read_file):
        self.read_file = read_file
        self.grids, self.arrays = {}, {}
        self.waits = {}
        self.operations = self.messages = self.message_words = 0
        self.output, self.saves = [], []
        self.ranks = 0

    def do(self, words):
        """One line, by its words."""
        getattr(self, "do_" + words[0].lower())(words[1:])

    def do_all(self, text):
        """Each line that isn't skipped."""
        for line in text.split("\n"):
            words = [w for w in line.replace("\t", " ").replace("\r", "").split(" ") if w]
            if words and not words[0].startswith("#"):
                self.do(words)

    # ---- declarations

    def do_ranks(self, w):
        self.ranks = int(w[0])

    def do_grid(self, w):
        p, q = int(w[2]), int(w[3])
        by_rows = w[1].upper() == "R"
        self.grids[w[0]] = Grid(p, q, [i * q + j if by_rows else j * p + i for i in range(p) for j in range(q)])

    def do_map(self, w):
        self.grids[w[0]] = Grid(int(w[1]), int(w[2]), [int(x) for x in w[3:]])

    def do_array(self, w):
        numbers = [int(x) for x in w[2:]]
        spread = Spread(self.grids[w[1]], *numbers[:6])
        sizes = [(1, 0)] * self.ranks
        for p in range(spread.grid.rows):
            for q in range(spread.grid.columns):
                lead = numbers[6] if len(numbers) > 6 else max(1, len(spread.local_rows(p)))
                sizes[spread.grid.rank(p, q)] = (lead, max(1, len(spread.local_columns(q))))
        self.arrays[w[0]] = Array(w[0], sizes)
        self.arrays[w[0]].spread = spread

    def do_matrix(self, w):
        self.arrays[w[0]] = Array(w[0], [(int(w[1]), int(w[2]))] * self.ranks)

    def elements(self, array):
        """Each element of an ARRAY with its rank and place."""
        s = array.spread
        for j in range(s.n):
            for i in range(s.m):
                p, q, li, lj = s.home(i, j)
                rank = s.grid.rank(p, q)
                yield i, j, rank, array.place(rank, li, lj)

    def do_fill(self, w):
        array = self.arrays[w[0]]
        a, b, c, d = (int(x) for x in w[1:])
        if array.spread is None:
            for rank, words in enumerate(array.words):
                lead = array.sizes[rank][0]
                for x in range(len(words)):
                    words[x] = wrapped(a + b * (x % lead) + c * (x // lead) + d * rank)
            return
        for words in array.words:
            words[:] = [d] * len(words)
        for i, j, rank, x in self.elements(array):
            array.words[rank][x] = wrapped(a + b * i + c * j)

    def do_load(self, w):
        array = self.arrays[w[0]]
        if self.read_file is None:
            return
        lines = [l for l in self.read_file(w[1]).split("\n")[1:] if l and not l.startswith("%")]
        m = int(lines[0].split()[0])
        values = [int(v) for v in lines[1:]]
        for i, j, rank, x in self.elements(array):
            array.words[rank][x] = values[j * m + i]

    # ---- exchanges

    def part(self, w):
        return self.arrays[w[0]], int(w[1]) - 1, int(w[2]) - 1, int(w[3]), int(w[4])

    def places(self, part, rank, shape=None):
        array, i0, j0, m, n = part
        return [array.place(rank, i0 + i, j0 + j) for i, j in selected(m, n, shape)]

    def taken(self, part, rank, shape=None):
        return [part[0].words[rank][x] for x in self.places(part, rank, shape)]

    def given(self, part, rank, words, shape=None):
        for x, word in zip(self.places(part, rank, shape), words):
            part[0].words[rank][x] = word

    def count(self, operations, messages, words):
        self.operations += operations
        self.messages += messages
        self.message_words += words

    def do_send(self, w):
        grid, part, shape = self.grids[w[0]], self.part(w[3:8]), w[10:12] or None
        me, to = grid.rank(int(w[1]), int(w[2])), grid.rank(int(w[8]), int(w[9]))
        words = self.taken(part, me, shape)
        self.waits.setdefault((me, to), []).append(words)
        self.count(1, 1, len(words))

    def do_recv(self, w):
        grid, part, shape = self.grids[w[0]], self.part(w[3:8]), w[10:12] or None
        me, source = grid.rank(int(w[1]), int(w[2])), grid.rank(int(w[8]), int(w[9]))
        self.given(part, me, self.waits[source, me].pop(0), shape)
        self.count(1, 0, 0)

    def do_bcast(self, w):
        grid, part, shape = self.grids[w[0]], self.part(w[5:10]), w[10:12] or None
        source = grid.rank(int(w[3]), int(w[4]))
        words = self.taken(part, source, shape)
        members = [grid.rank(p, q) for p, q in grid.scope(w[1])]
        for rank in members:
            self.given(part, rank, words, shape)
        others = len(members) - 1
        self.count(2 * others, others, others * len(words))

    def combine(self, kind, w):
        grid, part = self.grids[w[0]], self.part(w[5:10])
        places = grid.scope(w[1])
        members = [grid.rank(p, q) for p, q in places]
        to_all = int(w[3]) == -1
        rows = [self.taken(part, rank) for rank in members]
        folds = [fold(kind, list(words)) for words in zip(*rows)]
        for rank in members if to_all else [grid.rank(int(w[3]), int(w[4]))]:
            self.given(part, rank, [f[0] for f in folds])
            for name, at in zip(w[10:12], (0, 1)):
                corner = (self.arrays[name], 0, 0, part[3], part[4])
                self.given(corner, rank, [places[f[1]][at] for f in folds])
        n = len(members)
        messages = 2 * (n - 1) if to_all else n - 1
        per_message = part[3] * part[4] * (1 if kind == "SUM" else 2)
        self.count(6 * n - 4 if to_all else 3 * n - 1, messages, messages * per_message)

    def do_sum(self, w):
        self.combine("SUM", w)

    def do_amx(self, w):
        self.combine("AMX", w)

    def do_amn(self, w):
        self.combine("AMN", w)

    def do_barrier(self, w):
        others = len(self.grids[w[0]].scope(w[1])) - 1
        self.count(4 * others, 2 * others, 0)

    def move(self, shape, w):
        m, n = int(w[0]), int(w[1])
        a, ia, ja = self.arrays[w[2]], int(w[3]) - 1, int(w[4]) - 1
        b, ib, jb = self.arrays[w[5]], int(w[6]) - 1, int(w[7]) - 1
        pairs = {}
        for i, j in selected(m, n, shape):
            p, q, li, lj = a.spread.home(ia + i, ja + j)
            source = a.spread.grid.rank(p, q)
            word = a.words[source][a.place(source, li, lj)]
            p, q, li, lj = b.spread.home(ib + i, jb + j)
            target = b.spread.grid.rank(p, q)
            b.words[target][b.place(target, li, lj)] = word
            pairs[source, target] = pairs.get((source, target), 0) + 1
        sent = [k for (s, t), k in pairs.items() if s != t]
        self.count(len(sent) + len(pairs), len(sent), sum(sent))

    def do_gemr2d(self, w):
        self.move(None, w)

    def do_trmr2d(self, w):
        self.move((w[0], w[1]), w[2:])

    # ---- results

    def whole(self, array):
        rows = [[0] * array.spread.n for _ in range(array.spread.m)]
        for i, j, rank, x in self.elements(array):
            rows[i][j] = array.words[rank][x]
        return rows

    def do_save(self, w):
        array = self.arrays[w[0]]
        s = array.spread
        banner = "%%MatrixMarket matrix array integer general\n"
        if len(w) == 2:
            rows = self.whole(array)
            values = [rows[i][j] for j in range(s.n) for i in range(s.m)]
            text = banner + f"{s.m} {s.n}\n" + "".join(f"{v}\n" for v in values)
            self.saves.append((w[1], text))
            return
        for p in range(s.grid.rows):
            for q in range(s.grid.columns):
                rank = s.grid.rank(p, q)
                lead, columns = array.sizes[rank]
                head = f"%DESC {s.grid.rows} {s.grid.columns} {p} {q} {s.m} {s.n} {s.mb} {s.nb} {s.rsrc} {s.csrc} {lead}\n"
                values = "".join(f"{v}\n" for v in array.words[rank])
                self.saves.append((f"{w[1]}.{p}.{q}", banner + head + f"{lead} {columns}\n" + values))

    def print_rows(self, title, rows):
        self.output.append(title + "\n")
        self.output.extend(" ".join(str(v) for v in row) + "\n" for row in rows)

    def do_print(self, w):
        array = self.arrays[w[0]]
        if array.spread is not None:
            self.print_rows(f"{w[0]} {array.spread.m} {array.spread.n}", self.whole(array))
            return
        rank = int(w[1])
        lead, columns = array.sizes[rank]
        rows = [[array.words[rank][array.place(rank, i, j)] for j in range(columns)] for i in range(lead)]
        self.print_rows(f"{w[0]} rank {rank} {lead} {columns}", rows)

    def summary(self):
        words = sum(rows * columns for a in self.arrays.values() for rows, columns in a.sizes)
        return f"ranks {self.ranks}\noperations {self.operations}\nmessages {self.messages}\nwords {words + self.message_words}\n"


def read(name):
    with open(name) as file:
        return file.read()


def main(args):
    is_check = "--check" in args
    program = Program(None if is_check else read)
    program.do_all(read(args[-1]))
    if is_check:
        sys.stdout.write(program.summary())
        return
    if "--saves" in args:
        for name, text in program.saves:
            sys.stdout.write(f"== {name}\n{text}")
    sys.stdout.write("".join(program.output))


if __name__ == "__main__":
    main(sys.argv[1:])
