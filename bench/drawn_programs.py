"""Grid programs that are drawn line by line, most of them good, and edits of programs."""
import glob, os

TOP = os.path.dirname(os.path.dirname(os.path.abspath(__file__)))
GALLERY = []
for path in sorted(glob.glob(os.path.join(TOP, "examples/programs/*.txt"))):
    with open(path, "rb") as file:
        GALLERY.append(file.read())
with open(os.path.join(TOP, "examples/programs/first.txt"), "rb") as file:
    FIRST = file.read()
TOPS = "IDSMHFT-123456789"
NUMBERS = ["0", "1", "2", "3", "4", "-1", "5", "7", "64", "65", "+1", "-0", "007", "2147483647", "-2147483648", "2147483648", "16777216", "16777217", "x"]
WORDS = ["A", "R0", "C1", "r1", "c0", "R9", "R", "U", "L", "N", "u", "PIECES", "pieces", "-", "H", "t", "9", "I", "a", "b", "v", "g", "w", "m.mtx", "RANKS", "#"]
LINES = [
    b"", b"# a comment", b" \t", b"  # \x00\xff", b"BARRIER g A", b"MATRIX v 2 2", b"RANKS 2", b"PRINT", b"GRID z R 1 1", b"MATRIX zz 16777216 1", b"x" * 1025, b"#" * 1025,
]


class Draw:
    """What is declared so far."""

    def __init__(self, draw):
        self.draw = draw
        self.ranks = draw.randint(1, 6)
        self.grids, self.spreads, self.matrices = [], [], []
        self.lines = [f"RANKS {self.ranks}"]

    def pick(self, *words):
        return self.draw.choice(words)

    def grid(self):
        name = f"g{len(self.grids)}"
        shapes = [(p, q) for p in range(1, 4) for q in range(1, 4) if p * q <= self.ranks]
        p, q = self.draw.choice(shapes)
        if self.draw.random() < 0.3:
            ranks = self.draw.sample(range(self.ranks), p * q)
            self.lines.append(f"MAP {name} {p} {q} " + " ".join(map(str, ranks)))
        else:
            self.lines.append(f"GRID {name} {self.pick('R', 'C', 'r', 'c')} {p} {q}")
        self.grids.append((name, p, q))

    def array(self):
        grid, p, q = self.draw.choice(self.grids)
        name = f"a{len(self.spreads)}"
        m, n, mb, nb = self.draw.randint(0, 6), self.draw.randint(0, 6), self.draw.randint(1, 3), self.draw.randint(1, 3)
        loads = self.draw.random() < 0.2
        if loads:
            m, n = self.pick((7, 5), (7, 5), (7, 5), (5, 7))
        lead = self.pick("", "", " 7", " 8", " 1") if self.draw.random() < 0.5 else ""
        self.lines.append(f"ARRAY {name} {grid} {m} {n} {mb} {nb} {self.draw.randrange(p)} {self.draw.randrange(q)}{lead}")
        self.spreads.append((name, m, n))
        self.fill(name)
        if loads:
            self.lines.append(f"LOAD {name} m.mtx")

    def matrix(self):
        name = f"v{len(self.matrices)}"
        self.lines.append(f"MATRIX {name} {self.draw.randint(1, 4)} {self.draw.randint(1, 4)}")
        self.matrices.append(name)
        self.fill(name)

    def fill(self, name):
        if self.draw.random() < 0.8:
            numbers = [self.draw.choice([0, 1, -3, 10, 100, -2147483648, 2147483647, self.draw.randint(-99, 99)]) for _ in range(4)]
            self.lines.append(f"FILL {name} " + " ".join(map(str, numbers)))

    def part(self):
        name = self.draw.choice(self.matrices + [s[0] for s in self.spreads])
        i, j = self.pick(1, 1, 1, 2), self.pick(1, 1, 1, 2)
        return f"{name} {i} {j} {self.draw.randint(0, 2)} {self.draw.randint(0, 2)}"

    def shape(self):
        return self.pick("", "", f" {self.pick('U', 'L', 'l')} {self.pick('N', 'U', 'n')}")

    def message(self):
        grid, p, q = self.draw.choice(self.grids)
        a, b, c, d = self.draw.randrange(p), self.draw.randrange(q), self.draw.randrange(p), self.draw.randrange(q)
        part, shape = self.part(), self.shape()
        self.lines.append(f"SEND {grid} {a} {b} {part} {c} {d}{shape}")
        if self.draw.random() < 0.9:
            self.lines.append(f"RECV {grid} {c} {d} {part} {a} {b}{shape}")

    def joint(self):
        grid, p, q = self.draw.choice(self.grids)
        r, c = self.draw.randrange(p), self.draw.randrange(q)
        scope = self.pick("A", f"R{r}", f"C{c}", "a")
        top = self.draw.choice(TOPS)
        what = self.pick("BCAST", "SUM", "AMX", "AMN", "BARRIER")
        if what == "BARRIER":
            self.lines.append(f"BARRIER {grid} {scope}")
        elif what == "BCAST":
            self.lines.append(f"BCAST {grid} {scope} {top} {r} {c} {self.part()}{self.shape()}")
        else:
            dest = self.pick(f"{r} {c}", "-1 0", "-1 -5")
            corners = ""
            if what != "SUM" and len(self.matrices) > 2 and self.draw.random() < 0.5:
                corners = " " + " ".join(self.draw.sample(self.matrices, 2))
            self.lines.append(f"{what} {grid} {scope} {top} {dest} {self.part()}{corners}")

    def move(self):
        if len(self.spreads) < 2:
            return self.joint()
        (a, am, an), (b, bm, bn) = self.draw.sample(self.spreads, 2)
        m, n = self.draw.randint(0, min(am, bm)), self.draw.randint(0, min(an, bn))
        ia, ja, ib, jb = (self.draw.randint(1, 1 + most) for most in (am - m, an - n, bm - m, bn - n))
        words = f"{m} {n} {a} {ia} {ja} {b} {ib} {jb} {self.draw.choice(self.grids)[0]}"
        self.lines.append(f"GEMR2D {words}" if self.draw.random() < 0.6 else f"TRMR2D {self.pick('U', 'L', 'u')} {self.pick('N', 'U', 'n')} {words}")

    def results(self):
        for name, _, _ in self.spreads:
            self.lines.append(self.pick(f"PRINT {name}", f"SAVE {name} s.mtx", f"SAVE {name} {name} PIECES", f"SAVE {name} {name}.mtx"))
        for name in self.matrices:
            self.lines.append(f"PRINT {name} {self.draw.randrange(self.ranks)}")

    def text(self):
        whole = f"GRID all R 1 {self.ranks}"
        self.lines.append(whole)
        self.grids.append(("all", 1, self.ranks))
        for _ in range(self.draw.randint(0, 2)):
            self.grid()
        for _ in range(self.draw.randint(1, 4)):
            self.matrix()
        for _ in range(self.draw.randint(0, 3)):
            self.array()
        for _ in range(self.draw.randint(0, 6)):
            self.draw.choice([self.message, self.joint, self.move])()
        self.results()
        return "\n".join(self.lines).encode() + self.pick(b"\n", b"")


def base(draw):
    """A program of the gallery, or one that is drawn."""
    return draw.choice(GALLERY) if draw.random() < 0.4 else Draw(draw).text()


def one_edit(draw, data):
    lines = data.split(b"\n")
    k = draw.randrange(len(lines))
    words = lines[k].split(b" ")
    w = draw.randrange(len(words))
    what = draw.randrange(9)
    if what < 3:
        words[w] = draw.choice(NUMBERS).encode() if draw.random() < 0.6 else draw.choice(WORDS).encode()
        lines[k] = b" ".join(words)
    elif what == 3:
        words[w : w + 1] = draw.choice([[], [words[w], words[w]], [words[w].swapcase()], [words[w], b""]])
        lines[k] = b" ".join(words)
    elif what == 4:
        lines[k : k + 1] = draw.choice([[], [], [lines[k], lines[k]]])
    elif what == 5:
        j = draw.randrange(len(lines))
        lines[k], lines[j] = lines[j], lines[k]
    elif what == 6:
        lines.insert(k, draw.choice([draw.choice(LINES), draw.choice(lines)]))
    elif what == 7:
        text = lines[k]
        at = draw.randrange(len(text) + 1)
        lines[k] = text[:at] + draw.choice([b"\t", b"  ", b"\r", b"\x0b", b"\xc3\xa9", b"\x7f", b"~", b"#", b"-", b"0", b"9"]) + text[at + draw.randint(0, 1) :]
    else:
        return data.replace(b"\n", b"\r\n") if draw.random() < 0.3 else data[: draw.randrange(len(data) + 1)]
    return b"\n".join(lines)


def edited(draw, data):
    for _ in range(draw.choice([0, 1, 1, 1, 1, 2, 3])):
        if data:
            data = one_edit(draw, data)
    return data
