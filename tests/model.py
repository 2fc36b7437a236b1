#!/usr/bin/env python3
"""A second statement of the calls, to hold the program `vectors` against.

It is written from document 01 and its readings, by someone who had seen the definitions in `specs/`: a second writing, not a blind one. It aims at being
short and plain, not at speed.

    python3 tests/model.py < crates/vectors/stdin            prints what the program must print: this made crates/vectors/stdout
    python3 tests/model.py --random SEED N                   prints N random cases; how many of each answer there are goes to standard error
    python3 tests/model.py --models                          prints cases of models of small puzzles: those at the end of crates/vectors/stdin

To hold the program against it on cases that nobody chose:

    python3 tests/model.py --random 1 1000 > cases
    target/bin/vectors < cases > got; python3 tests/model.py < cases | cmp - got

A case is a line `ENTRY ROOM NUMBERS`: the buffer that is lent has ROOM words (bytes, for transpose, check_model and dimacs), all of them 7. A number may be negative: it stands for its 32 bits. `check_model`, `blocking`
and `probes` take the number of the puzzle's words, these words, then the model's bytes or the probe words. `N*M` stands for M times the
number N, in a case and in an answer; an answer uses it from four times on. Lines that begin with # and empty lines are printed and no more. The answer
to a case is ` NUMBER PLACE: BUFFER`, the whole buffer. Three entries answer otherwise. `encode`, the base program, takes a number of zero bytes that come behind its words:
the number is the checksum of what it writes, the place its length, and the first ROOM bytes follow. `from_two_powers` has no number and no place: its mask stands
for the number. `puzzle` has no buffer (its ROOM counts for nothing): after an acceptance, with place 0, come width, height, the word of the
height, the word of the cell count and K as a mask; then for each line, columns first, the word of its block count, its first variable, its number of
positions p, its least space and the start of each of its blocks.
"""
import random
import sys
from collections import namedtuple
from itertools import combinations, product

SEVEN = 7


class Refused(Exception):
    """A refusal: its number and its place."""

    def __init__(self, number, place):
        self.number, self.place = number, place


# ---- bits

def bits(mask):
    return [k for k in range(32) if mask >> k & 1]


def two_powers(mask):
    return [2 ** k for k in bits(mask)]


def from_two_powers(words):
    mask = 0
    for word in words:
        mask |= word
    return mask


# ---- lines; a block is a pair of its size and its colour

def runs(line):
    """The maximal runs of one non-blank colour, in order."""
    blocks = []
    for i, color in enumerate(line):
        if color == 0:
            continue
        if i > 0 and line[i - 1] == color:
            blocks[-1] = (blocks[-1][0] + 1, color)
        else:
            blocks.append((1, color))
    return blocks


def starts_of(blocks):
    starts = []
    for i, (_, color) in enumerate(blocks):
        if i == 0:
            starts.append(0)
        else:
            size_before, color_before = blocks[i - 1]
            starts.append(starts[-1] + size_before + (1 if color == color_before else 0))
    return starts


def least_space(blocks):
    return starts_of(blocks)[-1] + blocks[-1][0] if blocks else 0


def positions(length, blocks):
    return length - least_space(blocks) + 1


def geometry(length, blocks):
    return [positions(length, blocks), least_space(blocks)] + starts_of(blocks)


def read_line(line):
    if not 1 <= len(line) <= 64:
        raise Refused(2, 0)
    for i, color in enumerate(line):
        if color > 31:
            raise Refused(18, i)
    return [n for block in runs(line) for n in block]


def clue_of(length, words):
    """The blocks of the starts and ranges calls, after their refusals."""
    if not 1 <= length <= 64:
        raise Refused(2, 0)
    if len(words) % 2 == 1:
        raise Refused(1, len(words))
    if len(words) // 2 > 64:
        raise Refused(3, 0)
    for i, word in enumerate(words):
        if i % 2 == 0 and word == 0:
            raise Refused(4, i)
        if i % 2 == 1 and not 1 <= word <= 31:
            raise Refused(5, i)
    blocks = list(zip(words[0::2], words[1::2]))
    if least_space(blocks) > length:
        raise Refused(6, 0)
    return blocks


def starts(length, words):
    return geometry(length, clue_of(length, words))


def color_ranges(length, words):
    blocks = clue_of(length, words)
    p = positions(length, blocks)
    out = []
    for wanted in range(1, 32):
        own = [(start, start + size) for start, (size, color) in zip(starts_of(blocks), blocks) if color == wanted]
        out += [own[0][0], own[-1][1] + p - 1] if own else [0, 0]
    return out


# ---- puzzles

class Words:
    """Words that are read from the left."""

    def __init__(self, words):
        self.words, self.at = words, 0

    def next(self):
        """The next word and its place."""
        if self.at == len(self.words):
            raise Refused(1, len(self.words))
        self.at += 1
        return self.words[self.at - 1], self.at - 1

    def lines(self):
        """A section of columns or rows: the place of its count; each line's place and blocks."""
        count, begin = self.next()
        if not 1 <= count <= 64:
            raise Refused(2, begin)
        return begin, [self.line() for _ in range(count)]

    def line(self):
        count, begin = self.next()
        if count > 64:
            raise Refused(3, begin)
        return begin, [self.block() for _ in range(count)]

    def block(self):
        size, place = self.next()
        if size == 0:
            raise Refused(4, place)
        color, place = self.next()
        if not 1 <= color <= 31:
            raise Refused(5, place)
        return size, color

    def cells(self, area):
        count, begin = self.next()
        if count != area:
            raise Refused(7, begin)
        return begin, [self.mask() for _ in range(count)]

    def mask(self):
        mask, place = self.next()
        if mask == 0:
            raise Refused(8, place)
        return mask


def color_set(rows):
    return {color for blocks in rows for _, color in blocks} or {1}


Position = namedtuple("Position", "variable start end")
Block = namedtuple("Block", "color positions")


class Line:
    """A column or a row: the word of its block count, its clue and its length; laid, its first variable, p and its blocks with their positions."""

    def __init__(self, begin, clue, length):
        self.begin, self.clue, self.length = begin, clue, length

    def lay(self, variable):
        """Numbers the positions of its blocks from this variable on; answers the next variable."""
        self.variable, self.p, self.blocks = variable, positions(self.length, self.clue), []
        for start, (size, color) in zip(starts_of(self.clue), self.clue):
            self.blocks.append(Block(color, [Position(variable + i, start + i, start + i + size) for i in range(self.p)]))
            variable += self.p
        return variable


class Puzzle:
    """What accepted words are read as, or else a refusal."""

    def __init__(self, words):
        reader = Words(words)
        _, columns = reader.lines()
        self.rows_at, rows = reader.lines()
        self.width, self.height = len(columns), len(rows)
        self.cells_at, self.masks = reader.cells(self.width * self.height)
        if reader.at < len(words):
            raise Refused(11, reader.at)
        self.columns = [Line(begin, clue, self.height) for begin, clue in columns]
        self.rows = [Line(begin, clue, self.width) for begin, clue in rows]
        self.lines = self.columns + self.rows
        for l, line in enumerate(self.lines):
            if least_space(line.clue) > line.length:
                raise Refused(6, l)
        self.K = sorted(color_set([row.clue for row in self.rows]))
        for x, column in enumerate(self.columns):
            if any(color not in self.K for _, color in column.clue):
                raise Refused(9, x)
        for i, mask in enumerate(self.masks):
            if is_solved(mask) and bits(mask)[0] not in [0] + self.K:
                raise Refused(10, i)
        self.first_cell = 1
        for line in self.lines:
            self.first_cell = line.lay(self.first_cell)

    def variable(self, x, y, color):
        """The variable of a cell and a colour."""
        return self.first_cell + (y * self.width + x) * len(self.K) + self.K.index(color)


def is_solved(mask):
    return len(bits(mask)) == 1


def puzzle(words):
    z = Puzzle(words)
    out = [z.width, z.height, z.rows_at, z.cells_at, sum(2 ** color for color in z.K)]
    for line in z.lines:
        out += [line.begin, line.variable] + geometry(line.length, line.clue)
    return out


# ---- clauses: ten sections, each a list of lists of literals

def some_position(lines):
    return [[a.variable for a in block.positions] for line in lines for block in line.blocks]


def no_two_positions(lines):
    return [[-a.variable, -b.variable] for line in lines for block in line.blocks for a, b in combinations(block.positions, 2)]


def no_conflict(lines):
    return [[-a.variable, -b.variable]
            for line in lines for earlier, later in combinations(line.blocks, 2)
            for a in earlier.positions for b in later.positions
            if (a.end >= b.start if earlier.color == later.color else a.end > b.start)]


def covering(line, cell, color):
    return [a.variable for block in line.blocks if block.color == color for a in block.positions if a.start <= cell < a.end]


def covered(z):
    """Section 7."""
    out = []
    for x, y in by_column(z):
        for color in z.K:
            out.append(covering(z.columns[x], y, color) + [-z.variable(x, y, color)])
            out.append(covering(z.rows[y], x, color) + [-z.variable(x, y, color)])
    return out


def colored(z):
    """Section 8."""
    return [[-v, z.variable(x, y, color)]
            for x, y in by_column(z) for color in z.K
            for v in covering(z.columns[x], y, color) + covering(z.rows[y], x, color)]


def no_two_colors(z):
    """Section 9."""
    return [[-z.variable(x, y, a), -z.variable(x, y, b)] for x, y in by_column(z) for a, b in combinations(z.K, 2)]


def by_column(z):
    return [(x, y) for x in range(z.width) for y in range(z.height)]


def masked(z):
    """Section 10."""
    out = []
    for i, mask in enumerate(z.masks):
        x, y = i % z.width, i // z.width
        if mask == 1:
            out += [[-z.variable(x, y, color)] for color in z.K]
        elif is_solved(mask):
            out.append([z.variable(x, y, bits(mask)[0])])
        else:
            out += [[-z.variable(x, y, color)] for color in z.K if color not in bits(mask)]
    return out


def sections(z):
    """All ten. That they agree with the formulas is tested here, whoever asks."""
    out = [rule(lines) for rule in (some_position, no_two_positions, no_conflict) for lines in (z.columns, z.rows)]
    out += [covered(z), colored(z), no_two_colors(z), masked(z)]
    variables = z.variable(z.width - 1, z.height - 1, z.K[-1])
    literals = sum(len(clause) for section in out for clause in section)
    assert totals(z) == [variables] + [len(section) for section in out] + [literals, len(section_words(out))]
    return out


def section_words(lists):
    return [n for section in lists for n in [len(section)] + [n for clause in section for n in [len(clause)] + clause]]


# ---- counts, by document 01's formulas and not from the lists

def conflicts(line):
    packed = [(start, start + size, color) for start, (size, color) in zip(starts_of(line.clue), line.clue)]
    count = 0
    for (_, end, color), (start, _, other) in combinations(packed, 2):
        n = max(0, line.p - (start - end + (1 if color != other else 0)))
        count += n * (n + 1) // 2
    return count


def mask_count(mask, K):
    if is_solved(mask):
        return len(K) if mask == 1 else 1
    return len(K) - len([color for color in K if mask >> color & 1])


def totals(z):
    """Variables, the ten counts of clauses, all literals, words."""
    both, k, cells = (z.columns, z.rows), len(z.K), z.width * z.height
    placed = sum(len(line.clue) * line.p for line in z.lines)
    made = [sum(len(line.clue) for line in lines) for lines in both]
    made += [sum(len(line.clue) * line.p * (line.p - 1) // 2 for line in lines) for lines in both]
    made += [sum(conflicts(line) for line in lines) for lines in both]
    made += [2 * cells * k, sum(line.p * size for line in z.lines for size, _ in line.clue), cells * k * (k - 1) // 2]
    made += [sum(mask_count(mask, z.K) for mask in z.masks)]
    of_two = sum(made[2:6]) + made[7] + made[8]
    literals = placed + 2 * of_two + (made[6] + made[7]) + made[9]
    return [placed + cells * k] + made + [literals, 10 + sum(made) + literals]


# ---- clauses and counts, as calls

# Longer lists are not made: no case lends so many words, so that for them the formulas are enough.
LISTED = 60000


def clauses(words):
    z = Puzzle(words)
    needed = totals(z)[-1]
    if needed > LISTED:
        raise Refused(12, needed)
    return section_words(sections(z))


def counts(words):
    z = Puzzle(words)
    if totals(z)[-1] <= LISTED:
        sections(z)  # made only to be held against the formulas
    return totals(z)


# ---- models

def true_colors(z, model, i):
    return [color for color in z.K if model[z.variable(i % z.width, i // z.width, color) - 1] == 1]


def checked(words, model):
    """The puzzle, after the refusals of a model."""
    z = Puzzle(words)
    variables = totals(z)[0]
    if len(model) != variables:
        raise Refused(13, variables)
    for i, byte in enumerate(model):
        if byte > 1:
            raise Refused(14, i)
    all_clauses = [clause for section in sections(z) for clause in section]
    for i, clause in enumerate(all_clauses):
        if not any(model[abs(literal) - 1] == (literal > 0) for literal in clause):
            raise Refused(15, i)
    for i in range(z.width * z.height):
        if len(true_colors(z, model, i)) > 1:
            raise Refused(16, i)
    return z


def check_model(words, model):
    z = checked(words, model)
    return [(true_colors(z, model, i) + [0])[0] for i in range(z.width * z.height)]


def blocking(words, model):
    z = checked(words, model)
    true_cells = [v for v in range(z.first_cell, len(model) + 1) if model[v - 1] == 1]
    return [len(true_cells)] + [-v for v in true_cells]


# ---- probes

def claim(z, reader):
    """The x, y and colour of a probe or an impact."""
    x, place = reader.next()
    if x >= z.width:
        raise Refused(17, place)
    y, place = reader.next()
    if y >= z.height:
        raise Refused(17, place)
    color, place = reader.next()
    if color > 31:
        raise Refused(18, place)
    return x, y, color


def probes(words, probe_words):
    z = Puzzle(words)
    if len(probe_words) > 1048576:
        raise Refused(20, len(probe_words))
    reader, out = Words(probe_words), []
    for _ in range(reader.next()[0]):
        x, y, color = claim(z, reader)
        if color not in [0] + z.K:
            raise Refused(19, reader.at - 1)
        premise = [-z.variable(x, y, color)] if color else [z.variable(x, y, c) for c in z.K]
        for _ in range(reader.next()[0]):
            x, y, color = claim(z, reader)
            if color == 0:
                out += [premise + [-z.variable(x, y, c)] for c in z.K]
            elif color in z.K:
                out.append(premise + [z.variable(x, y, color)])
    if reader.at < len(probe_words):
        raise Refused(11, reader.at)
    return section_words([out])


# ---- DIMACS

def word_needed(words, at, wrong):
    if at == len(words) or wrong(words[at]):
        raise Refused(22, at)
    return words[at]


def dimacs(variables, section_count, words):
    if variables > 1000000:
        raise Refused(21, 0)
    if section_count > 16:
        raise Refused(21, 1)
    if len(words) > 1073741824:
        raise Refused(21, 2)
    at, lines = 0, []
    for _ in range(section_count):
        left = word_needed(words, at, lambda n: n < 0)
        at += 1
        for _ in range(left):
            count = word_needed(words, at, lambda n: n < 0)
            literals = [word_needed(words, i, lambda n: not 1 <= abs(n) <= variables) for i in range(at + 1, at + 1 + min(count, len(words)))]
            at += 1 + count
            lines.append(" ".join(str(n) for n in literals + [0]))
    if at < len(words):
        raise Refused(22, at)
    return list("".join(line + "\n" for line in [f"p cnf {variables} {len(lines)}"] + lines).encode())


# ---- the program

def encode(data):
    """What the base program writes, of the bytes that it reads."""
    try:
        if len(data) > 65536:
            raise Refused(23, 65536)
        if len(data) % 4:
            raise Refused(23, len(data))
        z = Puzzle([int.from_bytes(data[i:i + 4], "little") for i in range(0, len(data), 4)])
        if totals(z)[-1] > 16384:
            raise Refused(12, totals(z)[-1])
        text = dimacs(totals(z)[0], 10, section_words(sections(z)))
        if len(text) > 65536:
            raise Refused(12, len(text))
        return text
    except Refused as why:
        return list(f"refused {why.number} at {why.place}\n".encode())


def checksum(data):
    total = 7
    for byte in data:
        total = (31 * total + byte) % 4294967291
    return total


# ---- grids

def check_sizes(width, height, grid):
    if not 1 <= width <= 64:
        raise Refused(2, 0)
    if not 1 <= height <= 64:
        raise Refused(2, 1)
    if len(grid) != width * height:
        raise Refused(7, len(grid))


def columns_of(width, grid):
    return [grid[x::width] for x in range(width)]


def rows_of(width, grid):
    return [grid[i:i + width] for i in range(0, len(grid), width)]


def puzzle_words(columns, rows, masks):
    out = []
    for clues in (columns, rows):
        out.append(len(clues))
        for blocks in clues:
            out.append(len(blocks))
            out += [n for block in blocks for n in block]
    return out + [len(masks)] + masks


def read_grid(width, height, grid):
    check_sizes(width, height, grid)
    for i, color in enumerate(grid):
        if color > 31:
            raise Refused(18, i)
    columns = [runs(line) for line in columns_of(width, grid)]
    rows = [runs(line) for line in rows_of(width, grid)]
    mask = 1 + sum(2 ** color for color in color_set(rows))
    return puzzle_words(columns, rows, [mask] * len(grid))


def transpose(width, height, grid):
    check_sizes(width, height, grid)
    return [cell for column in columns_of(width, grid) for cell in column]


# ---- cases

def lent(room, call):
    """A call that writes what it accepts to the front of a buffer, or else says how long that should be."""
    buffer = [SEVEN] * room
    try:
        out = call()
        if len(out) > room:
            raise Refused(12, len(out))
    except Refused as why:
        return why.number, why.place, buffer
    return 0, len(out), out + buffer[len(out):]


def answer(entry, room, args):
    if entry == "from_two_powers":
        return from_two_powers(args), 0, [SEVEN] * room
    if entry == "puzzle":
        try:
            return 0, 0, puzzle(args)
        except Refused as why:
            return why.number, why.place, []
    if entry == "encode":
        out = encode(b"".join(n.to_bytes(4, "little") for n in args[1:]) + bytes(args[0]))
        return checksum(out), len(out), out[:room]
    if entry in ("check_model", "blocking", "probes"):
        call = {"check_model": check_model, "blocking": blocking, "probes": probes}[entry]
        return lent(room, lambda: call(args[1:1 + args[0]], args[1 + args[0]:]))
    calls = {
        "two_powers": lambda: two_powers(args[0]),
        "read_line": lambda: read_line(args),
        "starts": lambda: starts(args[0], args[1:]),
        "color_ranges": lambda: color_ranges(args[0], args[1:]),
        "read_grid": lambda: read_grid(args[0], args[1], args[2:]),
        "transpose": lambda: transpose(args[0], args[1], args[2:]),
        "clauses": lambda: clauses(args),
        "counts": lambda: counts(args),
        "dimacs": lambda: dimacs(args[0], args[1], [n - 2 ** 32 if n >= 2 ** 31 else n for n in args[2:]]),
    }
    return lent(room, calls[entry])


def numbers(text):
    out = []
    for word in text:
        n, _, times = word.partition("*")
        out += [int(n) % 2 ** 32] * (int(times) if times else 1)
    return out


def shown(words, least=4):
    """Words as text, a run of `least` or more of them as `N*M`."""
    out, i = [], 0
    while i < len(words):
        j = i
        while j < len(words) and words[j] == words[i]:
            j += 1
        out += [f"{words[i]}*{j - i}"] if j - i >= least else [str(words[i])] * (j - i)
        i = j
    return "".join(" " + word for word in out)


def answer_all(lines):
    for line in lines:
        print(line)
        if line and not line.startswith("#"):
            entry, *text = line.split(" ")
            room, *args = numbers(text)
            number, place, words = answer(entry, room, args)
            print(f" {number} {place}:{shown(words)}")


# ---- random cases

ODD_WORDS = [0, 1, 2, 3, 30, 31, 32, 33, 63, 64, 65, 66, 2 ** 31, 2 ** 32 - 1]


def random_size(r, most):
    return min(most, r.choice([1, 1, 2, 2, 3, 3, 4, 5, 6, 7, r.randint(8, 20), r.choice([63, 64])]))


def random_colors(r):
    return r.sample(range(1, 32), r.choice([0, 1, 1, 2, 3, 5]))


def random_picture(r, most=(64, 64)):
    """Width, height and the cells of a picture, in a few colours; now and then the one whose puzzle has the most words, a chequered one of 64 by 64."""
    if most == (64, 64) and r.random() < 0.003:
        a, b = r.sample(range(1, 32), 2)
        return 64, 64, [a if (i // 64 + i) % 2 else b for i in range(64 * 64)]
    width, height = random_size(r, most[0]), random_size(r, most[1])
    palette = [0] * r.randint(1, 3) + random_colors(r)
    cells = []
    for _ in range(width * height):
        cells.append(cells[-1] if cells and r.random() < 0.4 else r.choice(palette))
    return width, height, cells


def random_mask(r, K):
    kind = r.randrange(6)
    if kind == 0:
        return 1
    if kind == 1:
        return 2 ** r.choice(K)
    if kind == 2:
        return 1 + sum(2 ** color for color in K)
    if kind == 3:
        return 2 ** r.choice(K) | 2 ** r.randrange(32)
    if kind == 4:
        return r.choice([2 ** 31, 2 ** 32 - 1, 2 ** r.randrange(32)]) | 2 ** r.choice(K)
    return r.randrange(1, 2 ** 32) | 2 ** r.choice(K)


def random_clue(r, length, K):
    """A clue that fits the line, whatever the lines that cross it say."""
    blocks = []
    while r.random() < 0.7:
        more = blocks + [(r.randint(1, max(1, length // 2)), r.choice(K))]
        if least_space(more) > length:
            break
        blocks = more
    return blocks


def random_puzzle(r, most):
    """An accepted puzzle of at most so many columns and so many rows: columns, rows and masks."""
    width, height, cells = random_picture(r, most)
    if r.random() < 0.6:
        columns = [runs(line) for line in columns_of(width, cells)]
        rows = [runs(line) for line in rows_of(width, cells)]
    else:
        K = random_colors(r) or [1]
        rows = [random_clue(r, width, K) for _ in range(height)]
        columns = [random_clue(r, height, sorted(color_set(rows))) for _ in range(width)]
    K = sorted(color_set(rows))
    if r.random() < 0.3:
        masks = [random_mask(r, K)] * (width * height)
    else:
        masks = [random_mask(r, K) for _ in range(width * height)]
    return columns, rows, masks


def misfit(r, columns, rows, masks):
    """Words that the walk passes, most often with one of 6, 9 and 10."""
    columns, rows, masks = [list(c) for c in columns], [list(c) for c in rows], list(masks)
    for _ in range(r.choice([1, 1, 1, 2, 3])):
        lines = r.choice([columns, rows])
        i = r.randrange(len(lines))
        kind = r.randrange(4)
        if kind == 0 and lines[i]:
            b = r.randrange(len(lines[i]))
            lines[i][b] = (r.choice([1, 2, 3, 64, 65, 2 ** 32 - 1, 2 ** 31]), lines[i][b][1])
        elif kind == 1 and lines[i]:
            b = r.randrange(len(lines[i]))
            lines[i][b] = (lines[i][b][0], r.randint(1, 31))
        elif kind == 2:
            lines[i].insert(r.randint(0, len(lines[i])), (1, r.randint(1, 31)))
        else:
            masks[r.randrange(len(masks))] = 2 ** r.randrange(32)
    return columns, rows, masks


def damaged(r, words):
    """Words with some changed, dropped or added."""
    words = list(words)
    for _ in range(r.choice([1, 1, 1, 2, 3])):
        kind = r.randrange(8)
        at = r.choice([0, len(words) // 2, len(words) - 1, r.randrange(len(words))]) if words else 0
        if kind == 0 and words:
            del words[at]
        elif kind == 1:
            words.insert(at, r.choice(ODD_WORDS))
        elif kind == 2 and words:
            words = words[:at]
        elif kind == 3:
            words += [r.choice(ODD_WORDS)] * r.randint(1, 3)
        elif kind == 4 and words:
            words[at] = (words[at] + r.choice([-1, 1])) % 2 ** 32
        elif kind == 5 and words:
            words[at] = 0
        elif words:
            words[at] = r.choice(ODD_WORDS)
    return words


def random_words(r, most=(64, 64)):
    """Words of a puzzle, half of them damaged and a few with misfits."""
    parts = random_puzzle(r, most)
    kind = r.randrange(8)
    if kind >= 6:
        parts = misfit(r, *parts)
    words = puzzle_words(*parts)
    if kind < 4:
        words = damaged(r, words)
    elif kind == 7 and r.random() < 0.3:
        words.append(r.choice(ODD_WORDS))
    return words


def random_list_case(r, entry):
    """Half are accepted puzzles and no other, so that many are. The boards of clauses are small or narrow, so that few words are needed."""
    most = r.choice([(6, 6), (6, 6), (12, 2), (2, 12)]) if entry == "clauses" else (64, 64)
    args = puzzle_words(*random_puzzle(r, most)) if r.random() < 0.5 else random_words(r, most)
    return entry, random_room(r, entry, args), args


def random_room(r, entry, args):
    """What is needed, one less, more, or hardly any."""
    _, needed, _ = answer(entry, LISTED, args)
    return max(0, needed + r.choice([-1, 0, 0, 0, 1, 3])) if r.random() < 0.8 else r.randrange(4)


def random_grid_case(r, entry):
    width, height, cells = random_picture(r)
    if entry == "transpose":
        cells = [r.choice([cell, r.randrange(256)]) for cell in cells]
    if r.random() < 0.15:
        for _ in range(r.randint(1, 3)):
            cells[r.randrange(len(cells))] = r.choice([31, 32, 33, 64, 255])
    if r.random() < 0.15:
        width, height = r.choice([(height, width), (r.choice(ODD_WORDS), height), (width, r.choice(ODD_WORDS))])
    if r.random() < 0.15:
        cells = r.choice([cells[1:], cells + [r.randrange(40)], cells[:r.randrange(len(cells))]])
    args = [width, height] + cells
    return entry, random_room(r, entry, args), args


def model_of(z, cells):
    """The model whose picture this is."""
    model = [0] * totals(z)[0]
    for line, own in zip(z.lines, columns_of(z.width, cells) + rows_of(z.width, cells)):
        starts_there = [i for i, color in enumerate(own) if color and (i == 0 or own[i - 1] != color)]
        for block, start in zip(line.blocks, starts_there):
            for position in block.positions:
                model[position.variable - 1] = int(position.start == start)
    for i, color in enumerate(cells):
        if color:
            model[z.variable(i % z.width, i // z.width, color) - 1] = 1
    return model


def random_model(r, words, cells):
    """That of the picture, most often with a byte or two changed; or bytes at random; or of another length."""
    try:
        z = Puzzle(words)
    except Refused:
        return [r.randrange(2) for _ in range(r.randrange(20))]
    kind = r.random()
    if kind < 0.1:
        return [r.choice([0, 0, 0, 1]) for _ in range(totals(z)[0])]
    model = model_of(z, cells)
    if kind < 0.6:
        for _ in range(r.choice([1, 1, 2, 3])):
            i = r.randrange(len(model))
            model[i] = r.choice([model[i] ^ 1] * 3 + [r.randrange(256)])
    if kind > 0.95:
        model = r.choice([model[1:], model + [0], []])
    return model


def random_model_case(r, entry):
    """The puzzle of a picture, whose masks permit its colours most often."""
    width, height, cells = random_picture(r, (7, 7))
    columns = [runs(line) for line in columns_of(width, cells)]
    rows = [runs(line) for line in rows_of(width, cells)]
    K = sorted(color_set(rows))
    masks = [r.choice([2 ** cell, 2 ** cell | 2 ** r.choice(K), 1 + sum(2 ** color for color in K)]) for cell in cells]
    if r.random() < 0.1:
        masks[r.randrange(len(masks))] = random_mask(r, K)
    words = puzzle_words(columns, rows, masks)
    if r.random() < 0.1:
        words = damaged(r, words)
    args = [len(words)] + words + random_model(r, words, cells)
    return entry, random_room(r, entry, args), args


def random_probe_case(r):
    words = puzzle_words(*random_puzzle(r, r.choice([(4, 4), (64, 3), (3, 64)])))
    if r.random() < 0.1:
        words = damaged(r, words)
    try:
        z = Puzzle(words)
        sizes, colors = (z.width, z.height), [0] + z.K
    except Refused:
        sizes, colors = (3, 3), [0, 1]

    def some_claim(colors):
        return [r.randrange(sizes[0]), r.randrange(sizes[1]), r.choice(colors)]
    made = [r.randrange(5)]
    for _ in range(made[0]):
        impacts = [some_claim(colors + [r.randrange(32)]) for _ in range(r.randrange(4))]
        made += some_claim(colors) + [len(impacts)] + [n for impact in impacts for n in impact]
    if r.random() < 0.4:
        made = damaged(r, made)
    args = [len(words)] + words + made
    return "probes", random_room(r, "probes", args), args


def random_dimacs_case(r):
    """The clauses of a small puzzle, or sections at random, some of them damaged."""
    variables, section_count = r.choice([0, 1, 9, 10, 99, 100, 999999, 1000000]), r.choice([0, 1, 2, 15, 16])
    made = [[[r.choice([-1, 1]) * r.choice([1, 9, 10, variables, r.randint(1, variables)]) for _ in range(r.randrange(4))] for _ in range(r.randrange(4))] if variables else []
            for _ in range(section_count)]
    made = [[[min(n, variables) if n > 0 else max(n, -variables) for n in clause] for clause in section] for section in made]
    if r.random() < 0.3:
        z = Puzzle(puzzle_words(*random_puzzle(r, (3, 3))))
        variables, section_count, made = totals(z)[0], 10, sections(z)
    words = [n % 2 ** 32 for n in section_words(made)]
    if r.random() < 0.4:
        words = damaged(r, words)
    if r.random() < 0.1:
        variables, section_count = r.choice([(1000001, section_count), (variables, 17), (2 ** 32 - 1, 2 ** 32 - 1)])
    args = [variables, section_count] + words
    return "dimacs", random_room(r, "dimacs", args), args


def random_case(r):
    kind = r.random()
    if kind > 0.94:
        return random_dimacs_case(r)
    if kind < 0.08:
        return random_model_case(r, "check_model")
    if kind < 0.12:
        return random_model_case(r, "blocking")
    if kind < 0.2:
        return random_probe_case(r)
    if kind < 0.4:
        return "puzzle", 0, random_words(r)
    if kind < 0.6:
        return random_list_case(r, "clauses")
    if kind < 0.7:
        return random_list_case(r, "counts")
    return random_grid_case(r, "read_grid" if kind < 0.88 else "transpose")


def random_cases(seed, count):
    r = random.Random(seed)
    made, size = {}, 0
    for _ in range(count):
        entry, room, args = random_case(r)
        number, _, _ = answer(entry, room, args)
        made[entry, number] = made.get((entry, number), 0) + 1
        line = f"{entry} {room}{shown(args)}"
        size += len(line) + 1
        print(line)
    print(f"{size} bytes; the program reads up to 1048576", file=sys.stderr)
    for (entry, number), n in sorted(made.items()):
        print(f"{entry} {number}: {n}", file=sys.stderr)


# ---- the models of small puzzles

def readable(z):
    """All grids of blank and K whose lines read as their clues, by trying each."""
    for cells in product([0] + z.K, repeat=z.width * z.height):
        if all(runs(own) == line.clue for own, line in zip(columns_of(z.width, cells) + rows_of(z.width, cells), z.lines)):
            yield list(cells)


def obeys(mask, color):
    return mask >> color & 1 == 1 or (color == 0 and not is_solved(mask))


def small_puzzles():
    """Puzzles of several pictures, then with masks that leave fewer."""
    one = [[(1, 1)]]
    yield one * 2, one * 2, [3] * 4
    yield one * 2, one * 2, [3, 3, 2, 3]
    yield one * 2, one * 2, [3, 1, 3, 3]
    yield one * 2, one * 2, [3, 3, 3, 1 << 5 | 1]
    yield one * 3, one * 3, [3] * 9
    yield one + [[]] + [[(2, 1)]], [[(1, 1), (1, 1)]] + one, [3] * 6
    two = [[(1, 2)], [(1, 2)], [(1, 5)]]
    yield two, two, [37] * 9
    yield two, two, [37, 37, 5, 36, 1, 37, 37, 33, 32]


def model_cases():
    """Of each grid that reads as the clues its model and its blocking clause; and where it obeys the masks too, its model with each byte changed."""
    for parts in small_puzzles():
        words = puzzle_words(*parts)
        z = Puzzle(words)
        for cells in readable(z):
            model = model_of(z, cells)
            head = f"{len(words)}{shown(words)}"
            print(f"check_model {len(cells)} {head}{shown(model)}")
            print(f"blocking 12 {head}{shown(model)}")
            for i in range(len(model)) if all(map(obeys, z.masks, cells)) else []:
                changed = model[:i] + [1 - model[i]] + model[i + 1:]
                print(f"check_model {len(cells)} {head}{shown(changed)}")


def main():
    if len(sys.argv) == 2 and sys.argv[1] == "--models":
        model_cases()
    elif len(sys.argv) == 4 and sys.argv[1] == "--random":
        random_cases(int(sys.argv[2]), int(sys.argv[3]))
    elif len(sys.argv) == 1:
        answer_all(sys.stdin.read().splitlines())
    else:
        sys.exit(__doc__)


main()
