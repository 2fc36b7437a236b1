"""Feeds DIMACS texts of the library to SAT solvers, and their models back to it.

    compare/solvers [SEED]

Of each board, and with each of three solvers: the clauses as text; a model; the picture that `check_model` writes of it; the clause that `blocking` writes of it, in an eleventh
section; and so on, until the solver finds no more. Small boards: the pictures must be those of a brute force over all grids. With a section of random probes in a twelfth, they
must be those pictures in which the probes' impacts hold. The program `encode`, given the puzzle through a pipe in two pieces, must write the same text of the ten sections. Large boards, made from a known picture: every picture found must read as the same clues, no two may be the same, and where
the solver finds no more, the known picture must be among them. Ends at the first wrong answer, with status 1.
"""
import random
import subprocess
import sys
from itertools import product

import haafgrim

FOLDER, SEED = sys.argv[1], int(sys.argv[2])
SOLVERS = ("cadical", "minisat", "picosat")


def expect(right, what):
    if not right:
        sys.exit(f"wrong: {what}")


def solve(solver, text):
    """The model of a formula as a set of true variables, or None."""
    with open(f"{FOLDER}/formula.cnf", "wb") as file:
        file.write(text)
    command = [solver, f"{FOLDER}/formula.cnf"] + ([f"{FOLDER}/model"] if solver == "minisat" else [])
    run = subprocess.run(command, capture_output=True, text=True)
    expect(run.returncode in (10, 20), f"{solver} answers {run.returncode}: {run.stdout[-300:]}{run.stderr[-300:]}")
    if run.returncode == 20:
        return None
    if solver == "minisat":
        words = open(f"{FOLDER}/model").read().split()[1:]
    else:
        words = [word for line in run.stdout.splitlines() if line.startswith("v") for word in line.split()[1:]]
    return {int(word) for word in words if int(word) > 0}


def program(puzzle):
    """What the program writes, of words that come in two pieces."""
    data = b"".join(word.to_bytes(4, "little") for word in puzzle)
    run = subprocess.Popen(["target/bin/encode"], stdin=subprocess.PIPE, stdout=subprocess.PIPE)
    run.stdin.write(data[:7])
    run.stdin.flush()
    return run.communicate(data[7:])[0]


def check_program(puzzle):
    counts = haafgrim.counts(puzzle)
    text = haafgrim.dimacs(counts.variables, 10, haafgrim.clauses(puzzle))
    if counts.words > 16384:
        text = b"refused 12 at %d\n" % counts.words
    elif len(text) > 65536:
        text = b"refused 12 at %d\n" % len(text)
    expect(program(puzzle) == text, f"the program writes another text of {puzzle}")


def pictures(solver, puzzle, probes=None, most=None):
    """The pictures that the solver finds, one after another, and whether there are no more."""
    variables = haafgrim.counts(puzzle).variables
    words = haafgrim.clauses(puzzle).tolist()
    implications = haafgrim.probes(puzzle, probes).tolist() if probes is not None else []
    blocked, found = [], []
    while most is None or len(found) < most:
        blocking = [len(blocked)] + [word for clause in blocked for word in clause]
        true = solve(solver, haafgrim.dimacs(variables, 12 if implications else 11, words + blocking + implications))
        if true is None:
            return found, True
        model = [int(v in true) for v in range(1, variables + 1)]
        found.append(list(haafgrim.check_model(puzzle, model)))
        blocked.append(haafgrim.blocking(puzzle, model))
    return found, False


# ---- small boards, by brute force

def runs(line):
    out = []
    for i, color in enumerate(line):
        if color and i and line[i - 1] == color:
            out[-1][0] += 1
        elif color:
            out.append([1, color])
    return out


def puzzle_of(columns, rows, masks):
    words = []
    for lines in (columns, rows):
        words.append(len(lines))
        for blocks in lines:
            words += [len(blocks)] + [n for block in blocks for n in block]
    return words + [len(masks)] + masks


def lines_of(width, cells):
    return [runs(cells[x::width]) for x in range(width)], [runs(cells[i:i + width]) for i in range(0, len(cells), width)]


def obeys(mask, color):
    one_bit = mask & (mask - 1) == 0
    return mask >> color & 1 == 1 or (color == 0 and not one_bit)


def random_small(r):
    """Width, K, words, and all pictures, of clues that a random grid gives and masks that need not suit it."""
    width, height = r.choice([(1, 1), (2, 1), (2, 2), (3, 2), (2, 3), (3, 3), (4, 2)])
    palette = r.sample(range(1, 32), r.choice([1, 1, 2]))
    cells = [r.choice([0] + palette) for _ in range(width * height)]
    if r.random() < 0.4:  # one cell in each line, which many pictures have
        width = height = r.choice([2, 3, 3])
        order = r.sample(range(width), width)
        cells = [palette[0] if order[y] == x else 0 for y in range(height) for x in range(width)]
    columns, rows = lines_of(width, cells)
    K = sorted({color for blocks in rows for _, color in blocks} or {1})
    whole = 1 + sum(2 ** color for color in K)
    masks = [r.choice([whole] * 6 + [2 ** cell, 2 ** r.choice([0] + K), 2 ** r.choice(K) | 2 ** r.randrange(32)]) for cell in cells]
    masks = [mask if mask & (mask - 1) or mask & whole else whole for mask in masks]
    every = [list(grid) for grid in product([0] + K, repeat=len(cells)) if lines_of(width, grid) == (columns, rows) and all(map(obeys, masks, grid))]
    return width, height, K, puzzle_of(columns, rows, masks), every


def random_probes(r, width, height, K):
    def claim():
        return [r.randrange(width), r.randrange(height), r.choice([0] + K)]
    made = [[claim(), [claim() for _ in range(r.randint(1, 3))]] for _ in range(r.randint(1, 3))]
    words = [len(made)] + [n for premise, impacts in made for n in premise + [len(impacts)] + [n for impact in impacts for n in impact]]

    def holds(grid, cell):
        return grid[cell[1] * width + cell[0]] == cell[2]
    return words, lambda grid: all(holds(grid, impact) for premise, impacts in made if holds(grid, premise) for impact in impacts)


def small_boards(r, count):
    boards = found = several = 0
    for _ in range(count):
        width, height, K, puzzle, every = random_small(r)
        probes, implied = random_probes(r, width, height, K)
        check_program(puzzle)
        for solver in SOLVERS:
            got, whole = pictures(solver, puzzle)
            expect(whole and sorted(got) == sorted(every), f"{solver}, {puzzle}: {got} for {every}")
            got, whole = pictures(solver, puzzle, probes)
            expect(whole and sorted(got) == sorted(filter(implied, every)), f"{solver}, {puzzle}, probes {probes}: {got}")
        boards, found, several = boards + 1, found + len(every), several + (len(every) > 1)
    print(f"small boards: {boards}, {several} with more than one picture, {found} pictures, with and without probes: 0 wrong with each of {', '.join(SOLVERS)}")


# ---- large boards, of a known picture

def blobs(r, width, height, colors):
    """A picture of some rectangles, as drawn puzzles have them, with a little noise."""
    cells = [0] * (width * height)
    for _ in range(width * height // 12):
        x, y, w, h, color = r.randrange(width), r.randrange(height), r.randint(1, 6), r.randint(1, 6), r.choice([0] + list(range(1, colors + 1)) * 2)
        for j in range(y, min(y + h, height)):
            for i in range(x, min(x + w, width)):
                cells[j * width + i] = color
    return cells


def large_boards(r):
    for width, height, colors in [(10, 10, 1), (15, 15, 2), (20, 20, 4), (25, 25, 1), (25, 25, 3), (30, 20, 31)]:
        cells = blobs(r, width, height, colors)
        puzzle = haafgrim.read_grid(width, height, cells)
        check_program(puzzle)
        for solver in SOLVERS:
            found, whole = pictures(solver, puzzle, most=4)
            for picture in found:
                expect(haafgrim.read_grid(width, height, picture) == puzzle, f"{solver}: a picture reads as other clues")
            expect(len({bytes(picture) for picture in found}) == len(found), f"{solver}: a picture that was blocked")
            expect(not whole or cells in found, f"{solver}: the known picture of {width} by {height} is not found")
            print(f"{width} by {height}, {colors} colours, {solver}: {len(found)} picture{'s' * (len(found) != 1)}{', no more' if whole else ' and more'}")


def main():
    r = random.Random(SEED)
    small_boards(r, 150)
    large_boards(r)
    print(f"solvers: seed {SEED}, 0 wrong")


main()
