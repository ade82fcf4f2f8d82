"""A second reading of docs/FORMATS.md: what the commands answer, on whole lists of lines, without a line of the proved code.

answer(words, files) gives (status, files after, output, error stream): files are a dict from names to bytes. Programs are
read by refused.py.
"""
BANNER = b"%%MatrixMarket matrix array integer general\n"
USAGE = None  # the usage text is compared by .ci/pages


class Refused(Exception):
    """A line of a file that can't stand, or the line after the last."""

    def __init__(self, line, text):
        self.line, self.text = line, text


class Missing(Exception):
    def __init__(self, name):
        self.name = name


class Stop(Exception):
    """A status with its line."""

    def __init__(self, status, line):
        self.status, self.line = status, line


def lines_of(data):
    """(text, bytes up to its end) of each line."""
    found, at = [], 0
    while at < len(data):
        end = data.find(b"\n", at)
        after = len(data) if end < 0 else end + 1
        text = data[at:after]
        text = text[:-1] if end >= 0 else text
        text = text[:-1] if text.endswith(b"\r") else text
        found.append((text, after))
        at = after
    return found


def words_of(text):
    return [w for w in text.replace(b"\t", b" ").split(b" ") if w]


def is_text(text):
    return all(b == 9 or 32 <= b <= 126 for b in text)


def digits(word, signs):
    """The number of digits with one of these signs in front or none; None where it is none."""
    body = word[1:] if word[:1] and word[:1] in signs else word
    if not body or not all(48 <= b <= 57 for b in body):
        return None
    return -int(body) if word[:1] == b"-" and b"-" in signs else int(body)


def check_line(number, text, after, may_hold_any):
    if after > 2**30:
        raise Refused(number, "file too long")
    if len(text) > 1024:
        raise Refused(number, "line too long")
    if not may_hold_any and not is_text(text):
        raise Refused(number, "byte that is not text")


def symmetry_of(lines):
    """Line 1."""
    if not lines:
        raise Refused(1, "not a Matrix Market file")
    text, after = lines[0]
    check_line(1, text, after, False)
    words = words_of(text)
    if len(words) != 5 or text[:1] in b" \t" or words[0] != b"%%MatrixMarket" or words[1].lower() != b"matrix":
        raise Refused(1, "not a Matrix Market file")
    if words[2].lower() != b"array" or words[3].lower() != b"integer":
        raise Refused(1, "not an array of integers")
    if words[4].lower() not in (b"general", b"symmetric", b"skew-symmetric"):
        raise Refused(1, "unknown symmetry")
    return words[4].lower()


def size_of(lines, first, symmetry):
    """The size line, from this line on: its index, rows and columns."""
    for k in range(first, len(lines)):
        text, after = lines[k]
        is_comment = text[:1] == b"%"
        check_line(k + 1, text, after, is_comment)
        if is_comment or not words_of(text):
            continue
        numbers = [digits(w, b"+") for w in words_of(text)]
        if len(numbers) != 2 or None in numbers or max(numbers) > 2**24 or numbers[0] * numbers[1] > 2**26:
            raise Refused(k + 1, "bad size line")
        if symmetry != b"general" and numbers[0] != numbers[1]:
            raise Refused(k + 1, "bad size line")
        return k, numbers[0], numbers[1]
    raise Refused(len(lines) + 1, "bad size line")


def values_of(lines, first, want, least):
    values = []
    for k in range(first, len(lines)):
        text, after = lines[k]
        check_line(k + 1, text, after, False)
        words = words_of(text)
        if not words:
            continue
        if len(values) == want:
            raise Refused(k + 1, f"too many values, want {want}")
        value = digits(words[0], b"+-") if len(words) == 1 else None
        if value is None:
            raise Refused(k + 1, "bad value")
        if not least <= value < 2**31:
            raise Refused(k + 1, "value out of range")
        values.append(value)
    if len(values) < want:
        raise Refused(len(lines) + 1, f"too few values, have {len(values)} want {want}")
    return values


def read_matrix(data):
    """Rows, columns and the list of rows."""
    lines = lines_of(data)
    symmetry = symmetry_of(lines)
    at, m, n = size_of(lines, 1, symmetry)
    first_row = {b"general": lambda j: 0, b"symmetric": lambda j: j, b"skew-symmetric": lambda j: j + 1}[symmetry]
    stored = [(i, j) for j in range(n) for i in range(first_row(j), m)]
    least = -2**31 + 1 if symmetry == b"skew-symmetric" else -2**31
    rows = [[0] * n for _ in range(m)]
    for (i, j), value in zip(stored, values_of(lines, at + 1, len(stored), least)):
        rows[i][j] = value
        if symmetry != b"general":
            rows[j][i] = value if symmetry == b"symmetric" else -value
    return m, n, rows


def owned(n, nb, me, source, count):
    return [k for k in range(n) if (source + k // nb) % count == me]


class Head:
    """Line 2 of a piece."""

    def __init__(self, numbers):
        (self.p, self.q, self.row, self.column, self.m, self.n, self.mb, self.nb, self.rsrc, self.csrc, self.lld) = numbers

    def shared(self):
        return (self.p, self.q, self.m, self.n, self.mb, self.nb, self.rsrc, self.csrc)

    def info(self):
        """INFO of DESCINIT, or None."""
        for number, good in (
            (2, 0 <= self.m <= 2**24), (3, 0 <= self.n <= 2**24), (4, 1 <= self.mb <= 2**24), (5, 1 <= self.nb <= 2**24),
            (6, 0 <= self.rsrc < self.p), (7, 0 <= self.csrc < self.q),
        ):
            if not good:
                return -number
        least = max(1, numroc(self.m, self.mb, self.row, self.rsrc, self.p))
        return None if least <= self.lld <= 2**24 else -9

    def columns(self):
        return max(1, numroc(self.n, self.nb, self.column, self.csrc, self.q))


def numroc(n, nb, me, source, count):
    """How many of n indices lie on process me: whole blocks, and the part of the last."""
    distance = (me - source) % count
    blocks, rest = divmod(n, nb)
    return blocks // count * nb + (nb if distance < blocks % count else rest if distance == blocks % count else 0)


def read_piece(data, first, row, column, words_so_far):
    """The head and the values of a piece at its turn."""
    lines = lines_of(data)
    if symmetry_of(lines) != b"general":
        raise Refused(1, "unknown symmetry")
    if len(lines) < 2:
        raise Refused(2, "bad DESC line")
    text, after = lines[1]
    check_line(2, text, after, False)
    words = words_of(text)
    numbers = [digits(w, b"+-") for w in words[1:]]
    if len(words) != 12 or words[0] != b"%DESC" or text[:1] in b" \t" or None in numbers:
        raise Refused(2, "bad DESC line")
    if not all(-2**31 <= x < 2**31 for x in numbers):
        raise Refused(2, "bad DESC line")
    head = Head(numbers)
    if not (1 <= head.p <= 64 and 1 <= head.q <= 64 and head.p * head.q <= 64 and 0 <= head.row < head.p and 0 <= head.column < head.q):
        raise Refused(2, "bad DESC line")
    if first is not None and head.shared() != first.shared():
        raise Refused(2, "disagrees with the first piece")
    if head.info() is not None:
        raise Refused(2, f"INFO {head.info()}")
    if (head.row, head.column) != (row, column):
        raise Refused(2, "wrong place")
    at, r, c = size_of(lines, 2, b"general")
    if (r, c) != (head.lld, head.columns()):
        raise Refused(at + 1, f"size is {r} {c}, want {head.lld} {head.columns()}")
    if words_so_far + r * c > 2**26:
        raise Refused(at + 1, f"too many words: {words_so_far + r * c}")
    return head, values_of(lines, at + 1, r * c, -2**31)


def is_no_file(name):
    """Whether the last part of a name is a folder, or too long for a file system."""
    last = name.split("/")[-1]
    return last in ("", ".", "..") or len(last.encode()) > 255


def named(files, name, read):
    if is_no_file(name):
        raise Stop(3, f"gridtool: {name}: store fault\n")
    if name not in files:
        raise Missing(name)
    try:
        return read(files[name])
    except Refused as fault:
        raise Stop(1, f"gridtool: {name}: line {fault.line}: {fault.text}\n")


def gather(files, prefix):
    """All pieces by rows of the grid."""
    first, pieces, count = None, [], 0
    row = column = 0
    while first is None or row < first.p:
        name = f"{prefix}.{row}.{column}"
        head, values = named(files, name, lambda data: read_piece(data, first, row, column, count))
        first = first or head
        count += len(values)
        pieces.append((head, values))
        row, column = (row, column + 1) if column + 1 < first.q else (row + 1, 0)
    return pieces


def whole_of(pieces):
    """The rows of the matrix that lies in pieces."""
    m, n = pieces[0][0].m, pieces[0][0].n
    rows = [[0] * n for _ in range(m)]
    for head, values in pieces:
        own_rows = owned(m, head.mb, head.row, head.rsrc, head.p)
        own_columns = owned(n, head.nb, head.column, head.csrc, head.q)
        for lj, j in enumerate(own_columns):
            for li, i in enumerate(own_rows):
                rows[i][j] = values[lj * head.lld + li]
    return m, n, rows


def matrix_text(m, n, rows):
    return BANNER + f"{m} {n}\n".encode() + b"".join(b"%d\n" % rows[i][j] for j in range(n) for i in range(m))


def pieces_text(out, m, n, rows, p, q, mb, nb):
    """The names and texts of all pieces, by rows of the grid."""
    saves = []
    for row in range(p):
        own_rows = owned(m, mb, row, 0, p)
        for column in range(q):
            own_columns = owned(n, nb, column, 0, q)
            lld, c = max(1, len(own_rows)), max(1, len(own_columns))
            values = [0] * (lld * c)
            for lj, j in enumerate(own_columns):
                for li, i in enumerate(own_rows):
                    values[lj * lld + li] = rows[i][j]
            head = b"%%DESC %d %d %d %d %d %d %d %d 0 0 %d\n%d %d\n" % (p, q, row, column, m, n, mb, nb, lld, lld, c)
            saves.append((f"{out}.{row}.{column}", BANNER + head + b"".join(b"%d\n" % v for v in values)))
    return saves


def words_in_pieces(m, n, p, q, mb, nb):
    rows = [max(1, numroc(m, mb, k, 0, p)) for k in range(p)]
    columns = [max(1, numroc(n, nb, k, 0, q)) for k in range(q)]
    return sum(rows) * sum(columns)


def within_job(words):
    if words > 2**26:
        raise Stop(1, f"gridtool: too many words: {words}\n")


def runs_of(n, one, other):
    """The greatest runs of an axis that lie in one block of each of two distributions, with the owners."""
    nb, source, count = one
    nb2, source2, count2 = other
    found, k = [], 0
    while k < n:
        end = min(n, (k // nb + 1) * nb, (k // nb2 + 1) * nb2)
        found.append(((source + k // nb) % count, (source2 + k // nb2) % count2))
        k = end
    return found


def numbers_of_move(head, p, q, mb, nb):
    """Meets, messages, copies: grids are dealt out by rows of one world."""
    rows = runs_of(head.m, (head.mb, head.rsrc, head.p), (mb, 0, p))
    columns = runs_of(head.n, (head.nb, head.csrc, head.q), (nb, 0, q))
    pairs = {(a * head.q + c, b * q + d) for a, b in set(rows) for c, d in set(columns)}
    copies = sum(s == t for s, t in pairs)
    return len(rows) * len(columns), len(pairs) - copies, copies


# ---- the job of a seed and a size

def drawn(seed, count):
    """The first numbers of a linear congruential generator modulo 2^64, each the upper half of the next state, in two's complement."""
    state = seed
    for _ in range(count):
        state = (state * 6364136223846793005 + 1442695040888963407) % 2**64
        yield (state >> 32) - 2**32 * (state >> 63)


def job_line(seed, size):
    """The drawn matrix goes from 4 by 4 processes in blocks of 64 to 2 by 8 in blocks of 32, and back."""
    there = numbers_of_move(Head([4, 4, 0, 0, size, size, 64, 64, 0, 0, 0]), 2, 8, 32, 32)
    back = numbers_of_move(Head([2, 8, 0, 0, size, size, 32, 32, 0, 0, 0]), 4, 4, 64, 64)
    meets, messages, copies = (a + b for a, b in zip(there, back))
    return f"load {seed} {size} meets {meets} messages {messages} copies {copies} sum {sum(drawn(seed, size * size))}\n"


# ---- words of the command line

def number(word):
    return int(word) if 1 <= len(word) <= 20 and word.isascii() and word.isdigit() else None


def is_name(word):
    return 1 <= len(word.encode()) <= 1024 and "\0" not in word


def sorted_words(words, may):
    """Positional words and options; None where the words aren't in the table."""
    plain, options, k, after = [], {}, 0, False
    while k < len(words):
        word = words[k]
        k += 1
        if after or not word.startswith("-") or word == "-":
            plain.append(word)
        elif word == "--":
            after = True
        elif word == "--threads" and may:
            if options:
                return None
            options["threads"] = True
        elif (word == "--seed" or word.startswith("--seed=")) and may:
            if options:
                return None
            if word == "--seed":
                if k == len(words):
                    return None
                word, k = "--seed=" + words[k], k + 1
            seed = number(word[7:])
            if seed is None or seed >= 2**64:
                return None
            options["seed"] = seed
        else:
            return None
    return plain, options


def grid_words(words):
    numbers = [number(w) for w in words]
    if None in numbers:
        return None
    p, q, mb, nb = numbers
    good = 1 <= p <= 64 and 1 <= q <= 64 and p * q <= 64 and 1 <= mb <= 2**24 and 1 <= nb <= 2**24
    return numbers if good else None


def asked(words):
    """The command and its arguments, or None."""
    counts = {"split": 6, "join": 2, "move": 6, "check": 1, "run": 1, "load": 2}
    if not words or words[0] not in counts:
        return None
    found = sorted_words(words[1:], words[0] in ("move", "run"))
    if found is None or len(found[0]) != counts[words[0]]:
        return None
    plain = found[0]
    if words[0] == "load":
        seed, size = number(plain[0]), number(plain[1])
        good = seed is not None and seed < 2**64 and size is not None and 1 <= size <= 2000
        return ("load", seed, size, []) if good else None
    if not all(is_name(word) for word in plain[:2]):
        return None
    grid = grid_words(plain[2:]) if len(plain) == 6 else []
    return None if grid is None else (words[0], plain[0], plain[-1] if len(plain) == 1 else plain[1], grid)


def walk(command, name, out, grid, files):
    """The saves and the output of a command."""
    if command in ("check", "run"):
        import refused

        return (refused.check if command == "check" else refused.run)(name, files)
    if command == "load":
        return [], job_line(name, out)
    if command == "split":
        m, n, rows = named(files, name, read_matrix)
        within_job(max(1, m) * max(1, n) + words_in_pieces(m, n, *grid) + m * n)
        return pieces_text(out, m, n, rows, *grid), ""
    pieces = gather(files, name)
    head = pieces[0][0]
    held = sum(len(values) for _, values in pieces)
    if command == "join":
        within_job(held + max(1, head.m) * max(1, head.n) + head.m * head.n)
        return [(out, matrix_text(*whole_of(pieces)))], ""
    within_job(held + words_in_pieces(head.m, head.n, *grid) + head.m * head.n)
    told = "meets %d messages %d copies %d\n" % numbers_of_move(head, *grid)
    return pieces_text(out, *whole_of(pieces), *grid), told


def answer(words, files):
    task = asked(words)
    if task is None:
        return 2, files, "", USAGE
    try:
        saves, told = walk(*task, files)
    except Missing as lost:
        return 3, files, "", f"gridtool: {lost.name}: missing\n"
    except Stop as stop:
        return stop.status, files, "", stop.line
    after = dict(files)
    for name, text in saves:
        if is_no_file(name):
            return 3, after, "", f"gridtool: {name}: store fault\n"
        after[name] = text
    return 0, after, told, ""
