"""A second reading of docs/PROGRAMS.md: which line of a text is refused, and why; and what `check` and `run` answer.

It shares no line with the proved code. What an accepted line does is in model.py; how matrix files are read in second.py.
"""
import model
import second
from second import Refused, numroc

MOST_WORDS, MOST_OPERATIONS = 2**26, 2**20
SMALL = 300_000  # more words than that aren't held here


class TooBig(Exception):
    """Accepted, as far as it goes, but its arrays are too big for a list of numbers."""


# ---- the text

DECLARATIONS = ("GRID", "MAP", "ARRAY", "MATRIX", "LOAD", "FILL")
EXCHANGES = ("SEND", "RECV", "BCAST", "SUM", "AMX", "AMN", "BARRIER", "GEMR2D", "TRMR2D")
RESULTS = ("SAVE", "PRINT")
KEYWORDS = ("RANKS", *DECLARATIONS, *EXCHANGES, *RESULTS)

# after each keyword what its words stand for; what stands behind a bar may be left out
FORMS = {
    "RANKS": "n", "GRID": "new order n n", "ARRAY": "new grid z z z z z z | z", "MATRIX": "new n n",
    "LOAD": "spread file", "FILL": "array z z z z",
    "SEND": "grid n n array n n n n n n | uplo diag", "RECV": "grid n n array n n n n n n | uplo diag",
    "BCAST": "grid scope top n n array n n n n | uplo diag", "SUM": "grid scope top rdest cdest array n n n n",
    "AMX": "grid scope top rdest cdest array n n n n | array array", "AMN": "grid scope top rdest cdest array n n n n | array array",
    "BARRIER": "grid scope", "GEMR2D": "z z spread z z spread z z grid", "TRMR2D": "one one z z spread z z spread z z grid",
    "SAVE": "spread file | pieces",
}


def number(word):
    value = second.digits(word.encode(), b"+-")
    return value if value is not None and -2**31 <= value < 2**31 else None


def is_natural(word):
    return number(word) is not None and number(word) >= 0


def is_name(word):
    letters = word.isascii() and word[0].isalpha() and all(c.isalnum() or c == "_" for c in word)
    return letters and len(word) <= 32


def is_scope(word):
    if word.upper() == "A":
        return True
    line = word[1:]
    return word[0].upper() in "RC" and line.isdigit() and int(line) < 2**31


class Text:
    """The lines of a text, read one by one."""

    def __init__(self):
        self.ranks, self.grids, self.arrays = None, set(), {}
        self.part = 0
        self.lines = []

    def word_fault(self, kind, word, before):
        """What is wrong with a word that stands for this, or None."""
        if kind in ("n", "z", "rdest", "cdest"):
            value = number(word)
            if value is None or kind == "n" and value < 0 or kind == "rdest" and value < -1:
                return "bad number"
            if kind == "cdest" and number(before) != -1 and value < 0:
                return "bad number"
            return None
        if kind == "rank":
            return None if is_natural(word) and number(word) < self.ranks else "bad number"
        if kind == "new":
            if not is_name(word):
                return "bad name"
            return "name given twice" if word in self.grids or word in self.arrays else None
        if kind in ("grid", "array", "spread"):
            known = word in self.grids if kind == "grid" else word in self.arrays and (kind == "array" or self.arrays[word])
            return None if known else "bad name"
        good = {
            "order": lambda: word.upper() in ("R", "C"), "scope": lambda: is_scope(word),
            "top": lambda: word.upper() in ("I", "D", "S", "M", "H", "-", "F", "T", *"123456789"),
            "uplo": lambda: word.upper() in ("U", "L"), "diag": lambda: word.upper() in ("N", "U"),
            "one": lambda: len(word) == 1, "pieces": lambda: word.upper() == "PIECES", "file": lambda: True,
        }
        return None if good[kind]() else "unknown word"

    def forms(self, key, words):
        """What its words may stand for: one form or two; None where their number is wrong."""
        if key == "MAP":
            counted = len(words) >= 3 and is_natural(words[1]) and is_natural(words[2])
            if len(words) < 3 or counted and len(words) != 3 + number(words[1]) * number(words[2]):
                return None
            return ["new", "n", "n"] + ["n"] * (len(words) - 3)
        if key == "PRINT":
            if words and words[0] not in self.arrays:
                return ["array"] + ["file"] * (len(words) - 1)
            form = ["array"] + ([] if words and self.arrays[words[0]] else ["rank"])
        else:
            least, _, more = FORMS[key].partition("|")
            form = least.split()
            if len(words) > len(form):
                form += more.split()
        return form if len(form) == len(words) else None

    def order_fault(self, key):
        if key == "RANKS":
            return self.ranks is not None
        part = 1 if key in DECLARATIONS else 2 if key in EXCHANGES else 3
        return self.ranks is None or part < self.part

    def limit_fault(self, key, words):
        if key == "RANKS":
            return not 1 <= number(words[0]) <= 64
        if key == "MATRIX" and not all(1 <= number(w) <= 2**24 for w in words[1:]):
            return True
        if key in ("GRID", "MAP"):
            return len(self.grids) == 16
        return key in ("ARRAY", "MATRIX") and len(self.arrays) == 64

    def fault(self, words):
        """The fault of a line that isn't skipped, or None."""
        key, words = words[0].upper(), words[1:]
        if key not in KEYWORDS:
            return "unknown word"
        if self.order_fault(key):
            return "line out of order"
        form = self.forms(key, words)
        if form is None:
            return "wrong number of words"
        for k, (kind, word) in enumerate(zip(form, words)):
            fault = self.word_fault(kind, word, words[k - 1] if k else "")
            if fault:
                return fault
        return "limit passed" if self.limit_fault(key, words) else None

    def take(self, at, words):
        key = words[0].upper()
        if key == "RANKS":
            self.ranks = number(words[1])
        elif key in ("GRID", "MAP"):
            self.grids.add(words[1])
        elif key in ("ARRAY", "MATRIX"):
            self.arrays[words[1]] = key == "ARRAY"
        self.part = max(self.part, 2 if key in EXCHANGES else 3 if key in RESULTS else 1)
        self.lines.append((at, words))

    def read(self, data):
        lines = second.lines_of(data)
        for at, (text, _) in enumerate(lines, 1):
            words = second.words_of(text)
            is_comment = words and words[0].startswith(b"#")
            if len(text) > 1024 or at > 4096:
                raise Refused(at, "limit passed")
            if not is_comment and not second.is_text(text):
                raise Refused(at, "byte that is not text")
            if not words or is_comment:
                continue
            words = [w.decode() for w in words]
            fault = self.fault(words)
            if fault:
                raise Refused(at, fault)
            self.take(at, words)
        if self.ranks is None:
            raise Refused(len(lines) + 1, "line out of order")
        return self.lines


# ---- the lines

class Fault(Exception):
    """Why a line is refused."""


def need(good, text):
    if not good:
        raise Fault(text)


class Checked(model.Program):
    """Lines done one after the other, each looked at first."""

    def __init__(self, files):
        super().__init__(files)
        self.array_words = 0

    def room_for(self, words):
        total = self.array_words + self.message_words + words
        need(total <= MOST_WORDS, f"too many words: {total}")

    def check_shape(self, p, q):
        need(1 <= p <= 64 and 1 <= q <= 64, f"bad grid shape {p} {q}")
        need(p * q <= self.ranks, f"grid needs {p * q} ranks of {self.ranks}")

    def do_grid(self, w):
        self.check_shape(int(w[2]), int(w[3]))
        super().do_grid(w)

    def do_map(self, w):
        self.check_shape(int(w[1]), int(w[2]))
        ranks = [int(x) for x in w[3:]]
        for k, rank in enumerate(ranks):
            need(rank < self.ranks, f"no process {rank}")
            need(rank not in ranks[:k], f"process {rank} named twice")
        super().do_map(w)

    def add_array(self, words):
        self.room_for(words)
        self.array_words += words
        if self.array_words > SMALL:
            raise TooBig

    def do_array(self, w):
        grid = self.grids[w[1]]
        m, n, mb, nb, rsrc, csrc, *lld = [int(x) for x in w[2:]]
        words = 0
        for p in range(grid.rows):
            for q in range(grid.columns):
                good = ((2, 0 <= m <= 2**24), (3, 0 <= n <= 2**24), (4, 1 <= mb <= 2**24), (5, 1 <= nb <= 2**24),
                        (6, 0 <= rsrc < grid.rows), (7, 0 <= csrc < grid.columns))
                for place, is_good in good:
                    need(is_good, f"INFO -{place}")
                least = max(1, numroc(m, mb, p, rsrc, grid.rows))
                lead = lld[0] if lld else least
                need(least <= lead <= 2**24, "INFO -9")
                words += lead * max(1, numroc(n, nb, q, csrc, grid.columns))
        self.add_array(words)
        super().do_array(w)

    def do_matrix(self, w):
        self.add_array(int(w[1]) * int(w[2]) * self.ranks)
        super().do_matrix(w)

    def do_load(self, w):
        if self.read_file is None:
            return
        array = self.arrays[w[0]]
        m, n, rows = second.named(self.read_file, w[1], second.read_matrix)
        s = array.spread
        need((m, n) == (s.m, s.n), f"file is {m} {n}, array is {s.m} {s.n}")
        for i, j, rank, x in self.elements(array):
            array.words[rank][x] = rows[i][j]

    # exchanges: what may wait, the call's own refusals, the limits

    def no_waiting(self, pairs):
        for sender, receiver in pairs:
            need(not self.waits.get((sender, receiver)), f"message from {sender} to {receiver} still waits")

    def need_place(self, grid, p, q):
        need(p < grid.rows and q < grid.columns, "no such place in the grid")

    def fits(self, part, rank):
        array, i, j, m, n = part
        lead, columns = array.sizes[rank]
        return i >= 0 and j >= 0 and i + m <= lead and j + n <= columns

    def will_do(self, operations, words):
        need(self.operations + operations <= MOST_OPERATIONS, "too many operations")
        self.room_for(words)

    def members(self, grid, scope):
        """The processes of the scope, none where it isn't there."""
        line = 0 if scope.upper() == "A" else int(scope[1:])
        most = grid.rows if scope[0].upper() == "R" else grid.columns
        return grid.scope(scope) if scope.upper() == "A" or line < most else []

    def quiet_members(self, grid, scope):
        places = self.members(grid, scope)
        ranks = [grid.rank(p, q) for p, q in places]
        self.no_waiting((a, b) for a in ranks for b in ranks if a != b)
        return places, ranks

    def point(self, w):
        """What a SEND or RECV needs: the two ranks and the number of words."""
        grid, part = self.grids[w[0]], self.part(w[3:8])
        self.need_place(grid, int(w[1]), int(w[2]))
        self.need_place(grid, int(w[8]), int(w[9]))
        me, other = grid.rank(int(w[1]), int(w[2])), grid.rank(int(w[8]), int(w[9]))
        need(self.fits(part, me), "region outside the array")
        return me, other, len(model.selected(part[3], part[4], w[10:12] or None))

    def do_send(self, w):
        words = self.point(w)[2]
        self.will_do(1, words)
        super().do_send(w)

    def do_recv(self, w):
        me, source, words = self.point(w)
        waiting = self.waits.get((source, me))
        need(waiting, f"no message from {source} to {me}")
        need(len(waiting[0]) == words, f"message has {len(waiting[0])} words, want {words}")
        self.will_do(1, 0)
        super().do_recv(w)

    def do_bcast(self, w):
        grid, part = self.grids[w[0]], self.part(w[5:10])
        places, ranks = self.quiet_members(grid, w[1])
        need((int(w[3]), int(w[4])) in places, "no such place in the grid")
        need(all(self.fits(part, rank) for rank in ranks), "region outside the array")
        others = len(ranks) - 1
        self.will_do(2 * others, others * len(model.selected(part[3], part[4], w[10:12] or None)))
        super().do_bcast(w)

    def combine(self, kind, w):
        grid, part = self.grids[w[0]], self.part(w[5:10])
        places, ranks = self.quiet_members(grid, w[1])
        to_all = int(w[3]) == -1
        need(places and (to_all or (int(w[3]), int(w[4])) in places), "no such place in the grid")
        corners = [self.arrays[name] for name in w[10:12]]
        used = [part[0], *corners]
        need(all(used[i] is not used[j] for i in range(len(used)) for j in range(i)), "the same array twice")
        m, n = part[3], part[4]
        wide = all(array.sizes[rank][1] >= n for array in corners for rank in ranks)
        need(all(self.fits(part, rank) for rank in ranks) and wide, "region outside the array")
        for rank in ranks:
            for array in corners:
                lead = array.sizes[rank][0]
                need(lead >= m, f"leading dimension {lead} less than {m}")
        count = len(ranks)
        messages = 2 * (count - 1) if to_all else count - 1
        self.will_do(6 * count - 4 if to_all else 3 * count - 1, messages * m * n * (1 if kind == "SUM" else 2))
        super().combine(kind, w)

    def do_barrier(self, w):
        ranks = self.quiet_members(self.grids[w[0]], w[1])[1]
        need(ranks, "no such place in the grid")
        self.will_do(4 * (len(ranks) - 1), 0)
        super().do_barrier(w)

    def check_move(self, w, shift):
        m, n, ia, ja, ib, jb = (int(w[k]) for k in (0, 1, 3, 4, 6, 7))
        a, b = self.arrays[w[2]].spread, self.arrays[w[5]].spread
        grid = self.grids[w[8]]
        held = a.grid.ranks + b.grid.ranks
        for place, is_good in (
            (1, 0 <= m <= 2**24), (2, 0 <= n <= 2**24),
            (4, 1 <= ia and ia + m - 1 <= a.m), (5, 1 <= ja and ja + n - 1 <= a.n),
            (8, 1 <= ib and ib + m - 1 <= b.m), (9, 1 <= jb and jb + n - 1 <= b.n),
            (11, all(rank in grid.ranks for rank in held)),
        ):
            need(is_good, f"INFO -{place + shift}")
        need(w[2] != w[5], "the same array twice")

    def move(self, shape, w):
        a, b = self.arrays[w[2]].spread, self.arrays[w[5]].spread
        self.no_waiting((s, t) for s in a.grid.ranks for t in b.grid.ranks)
        if shape:
            need(shape[0].upper() in "UL", "INFO -1")
            need(shape[1].upper() in "NU", "INFO -2")
        self.check_move(w, 2 if shape else 0)
        super().move(shape, w)
        need(self.operations <= MOST_OPERATIONS, "too many operations")
        self.room_for(0)


# ---- the commands

def done(name, files, loads):
    """The program of a file after its lines, with these files to load, or without any."""

    def lines_done(data):
        program = Checked(loads)
        for at, words in Text().read(data):
            try:
                program.do(words)
            except Fault as fault:
                raise Refused(at, str(fault))
        return program

    return second.named(files, name, lines_done)


def check(name, files):
    return [], done(name, files, None).summary()


def run(name, files):
    program = done(name, files, files)
    return [(save, text.encode()) for save, text in program.saves], "".join(program.output)
