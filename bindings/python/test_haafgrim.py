"""Tests of the module: known answers, every refusal, numbers that do not fit, all kinds of input, threads, and a second way to the answer where it is cheap."""
import ctypes
import pickle
import random
import threading
import unittest
from array import array
from concurrent.futures import ThreadPoolExecutor
from itertools import groupby, product

import haafgrim
from haafgrim import Refusal

# One cell, and a block of one cell in its column and in its row: P8 of the scope document.
CELL = [1, 1, 1, 1, 1, 1, 1, 1, 1, 3]
CELL_CLAUSES = [1, 1, 1, 1, 1, 2, 0, 0, 0, 0, 2, 2, 1, -3, 2, 2, -3, 2, 2, -1, 3, 2, -2, 3, 0, 0]
CELL_TEXT = b"p cnf 3 6\n1 0\n2 0\n1 -3 0\n2 -3 0\n-1 3 0\n-2 3 0\n"

# Two by two cells, and a block of one cell in every line: P11, with the model of the falling diagonal.
DIAGONALS = [2, 1, 1, 1, 1, 1, 1, 2, 1, 1, 1, 1, 1, 1, 4, 3, 3, 3, 3]
FALLING = [1, 0, 0, 1, 1, 0, 0, 1, 1, 0, 0, 1]

# The least and the greatest number of each kind of word.
U8, U32, I32, SIZE = (0, 2**8 - 1), (0, 2**32 - 1), (-2**31, 2**31 - 1), (0, 2 ** (8 * ctypes.sizeof(ctypes.c_size_t)) - 1)

# Of each entry: arguments that it accepts, the words of its numbers, and those of its lists.
ENTRIES = {
    haafgrim.two_powers: ([5], [U32], []),
    haafgrim.from_two_powers: ([[1, 4]], [], [U32]),
    haafgrim.read_line: ([[0, 1, 1]], [], [U8]),
    haafgrim.starts: ([4, [2, 1, 1, 2]], [SIZE], [U32]),
    haafgrim.color_ranges: ([4, [2, 1, 1, 2]], [SIZE], [U32]),
    haafgrim.read_grid: ([2, 2, [1, 0, 0, 1]], [SIZE, SIZE], [U8]),
    haafgrim.transpose: ([2, 2, [1, 0, 0, 1]], [SIZE, SIZE], [U8]),
    haafgrim.clauses: ([CELL], [], [U32]),
    haafgrim.counts: ([CELL], [], [U32]),
    haafgrim.check_model: ([DIAGONALS, FALLING], [], [U32, U8]),
    haafgrim.blocking: ([DIAGONALS, FALLING], [], [U32, U8]),
    haafgrim.probes: ([DIAGONALS, [0]], [], [U32, U32]),
    haafgrim.dimacs: ([3, 10, CELL_CLAUSES], [SIZE, SIZE], [I32]),
}
NO_NUMBERS = (1.0, "1", b"1", None, [1], 1j, object())


def answer(function, *args):
    """The result, or the number and the place of the refusal."""
    try:
        return function(*args)
    except Refusal as refusal:
        return refusal.args


def changed(at, word):
    return CELL[:at] + [word] + CELL[at + 1:]


class Vectors(unittest.TestCase):
    """The scope document's table of small puzzles done by hand."""

    def test_lines(self):
        self.assertEqual(haafgrim.read_line([0, 0, 1, 1, 0, 2]), [(2, 1), (1, 2)])  # P1
        for length in range(3, 65):
            self.assertEqual(haafgrim.starts(length, [1, 1, 1, 1]), (length - 2, 3, [0, 2]))  # P3
            self.assertEqual(haafgrim.starts(length, [1, 1, 1, 2, 1, 1]), (length - 2, 3, [0, 1, 2]))  # P4
        self.assertEqual(haafgrim.starts(4, [2, 1, 1, 2]).positions, 2)  # P5
        self.assertEqual(haafgrim.color_ranges(4, [2, 1, 1, 2]), [range(0, 3), range(2, 4)] + [range(0)] * 29)

    def test_one_cell(self):  # P8
        self.assertEqual(haafgrim.clauses(CELL).tolist(), CELL_CLAUSES)
        self.assertEqual(haafgrim.counts(CELL), (3, [1, 1, 0, 0, 0, 0, 2, 2, 0, 0], 10, 26))
        self.assertEqual(haafgrim.dimacs(3, 10, CELL_CLAUSES), CELL_TEXT)
        self.assertEqual(haafgrim.check_model(CELL, [1, 1, 1]), b"\1")

    def test_one_cell_changed(self):
        changes = {(0, 0): (2, 0), (0, 65): (2, 0), (2, 2): (6, 0), (3, 2): (9, 0), (9, 0): (8, 9), (9, 4): (10, 0)}
        for change, refusal in changes.items():
            self.assertEqual(answer(haafgrim.clauses, changed(*change)), refusal, change)
        self.assertEqual(answer(haafgrim.clauses, []), (1, 0))
        self.assertEqual(answer(haafgrim.clauses, CELL + [0]), (11, 10))

    def test_counts(self):  # P10
        puzzle = [2, 1, 1, 1, 0, 1, 1, 1, 1, 2, 3, 3]
        counts = haafgrim.counts(puzzle)
        self.assertEqual((counts.variables, sum(counts.clauses), counts.words), (5, 10, 38))
        self.assertEqual(len(haafgrim.clauses(puzzle)), 38)

    def test_blocking(self):  # P11, P12
        self.assertEqual(haafgrim.read_grid(2, 2, [1, 0, 0, 1]).tolist(), DIAGONALS)
        self.assertEqual(haafgrim.check_model(DIAGONALS, FALLING), b"\1\0\0\1")
        self.assertEqual(haafgrim.blocking(DIAGONALS, FALLING).tolist(), [2, -9, -12])
        self.assertEqual(haafgrim.blocking([1, 0, 1, 0, 1, 3], [0]).tolist(), [0])

    def test_probes(self):
        probe = [2, 0, 0, 1, 2, 1, 1, 1, 1, 0, 7, 1, 0, 0, 1, 0, 1, 0]
        self.assertEqual(haafgrim.probes(DIAGONALS, probe).tolist(), [2, 2, -9, 12, 2, 10, -11])

    def test_largest(self):
        cells = bytes(1 + (x + y) % 31 for y in range(64) for x in range(64))
        self.assertEqual(len(haafgrim.read_line(cells[:64])), 64)
        self.assertEqual(len(haafgrim.read_grid(64, 64, cells)), 20611)


class Refusals(unittest.TestCase):
    LINES = [
        (haafgrim.read_line, [[]], 2, 0), (haafgrim.read_line, [[1] * 65], 2, 0), (haafgrim.read_line, [[31, 32]], 18, 1),
        (haafgrim.starts, [0, []], 2, 0), (haafgrim.starts, [SIZE[1], [1]], 2, 0), (haafgrim.starts, [64, [1, 1, 1]], 1, 3),
        (haafgrim.starts, [64, [1] * 130], 3, 0), (haafgrim.starts, [64, [1, 1, 0, 1]], 4, 2), (haafgrim.starts, [64, [1, 32]], 5, 1),
        (haafgrim.starts, [2, [1, 1, 1, 1]], 6, 0), (haafgrim.color_ranges, [65, [1]], 2, 0), (haafgrim.color_ranges, [64, [U32[1], 1]], 6, 0),
    ]
    GRIDS = [row for function in (haafgrim.read_grid, haafgrim.transpose) for row in (
        (function, [0, 0, []], 2, 0), (function, [65, 1, [1] * 65], 2, 0), (function, [1, SIZE[1], []], 2, 1), (function, [2, 2, [1] * 5], 7, 5))]
    MODELS = [row for function in (haafgrim.check_model, haafgrim.blocking) for row in (
        (function, [CELL, []], 13, 3), (function, [CELL, [0, 2, 1]], 14, 1), (function, [CELL, [1, 1, 0]], 15, 4))]
    PROBES = [
        (haafgrim.probes, [DIAGONALS, probe], number, place) for probe, number, place in (
            (bytes(1048577), 20, 1048577), (bytes(1048576), 11, 1), ([], 1, 0), ([1, 0, 0, 1, 1, 0, 0], 1, 7), ([1, 2, 0, 1, 0], 17, 1),
            ([1, 0, 0, 32, 0], 18, 3), ([1, 0, 0, 2, 0], 19, 3), ([1, 0, 0, 1, 0, 9], 11, 5))]
    TEXTS = [
        (haafgrim.dimacs, [1000001, 17, []], 21, 0), (haafgrim.dimacs, [SIZE[1], 0, []], 21, 0), (haafgrim.dimacs, [1, 17, []], 21, 1),
        (haafgrim.dimacs, [1, SIZE[1], []], 21, 1), (haafgrim.dimacs, [1, 1, []], 22, 0), (haafgrim.dimacs, [1, 1, [1, 1, I32[0]]], 22, 2),
        (haafgrim.dimacs, [1, 1, [0, 0]], 22, 1), (haafgrim.read_grid, [2, 1, [31, 255]], 18, 1),
    ]
    # Words that are no puzzle; what comes with them is worse still.
    PUZZLES = [
        (function, [words] + more, number, place)
        for function, more in ((haafgrim.clauses, []), (haafgrim.counts, []), (haafgrim.check_model, [[2]]), (haafgrim.blocking, [[2]]), (haafgrim.probes, [[1]]))
        for words, number, place in (
            ([], 1, 0), (CELL[:9], 1, 9), (changed(4, 0), 2, 4), (changed(1, 65), 3, 1), (changed(2, 0), 4, 2), (changed(7, 32), 5, 7),
            (changed(6, U32[1]), 6, 1), (changed(8, 2), 7, 8), (changed(9, 0), 8, 9), (changed(3, 2), 9, 0), (changed(9, 2**31), 10, 0), (CELL + [0], 11, 10))]

    def test_each_number_and_place(self):
        numbers = set()
        for function, args, number, place in self.LINES + self.GRIDS + self.MODELS + self.PROBES + self.TEXTS + self.PUZZLES:
            with self.subTest(entry=function.__name__, number=number, place=place):
                self.assertEqual(answer(function, *args), (number, place))
            numbers.add(number)
        self.assertEqual(numbers, set(range(1, 23)) - {12, 16})  # 12 is answered within the module, 16 never

    def test_exception(self):
        with self.assertRaises(Refusal) as caught:
            haafgrim.clauses([])
        refusal = pickle.loads(pickle.dumps(caught.exception))
        self.assertEqual((refusal.number, refusal.place, str(refusal)), (1, 0, "refused 1 at 0"))


class NumbersThatDoNotFit(unittest.TestCase):
    def each_argument(self, check):
        """Hands the bounds of each argument of each entry, whether it is a list, and a function of that argument alone."""
        for function, (args, numbers, lists) in ENTRIES.items():
            for at, bounds in enumerate(numbers + lists):
                with self.subTest(entry=function.__name__, argument=at):
                    check(bounds, at >= len(numbers), lambda value: answer(function, *args[:at], value, *args[at + 1:]))

    def test_numbers(self):
        def check(bounds, is_list, call):
            least, greatest = bounds
            for value in (least - 1, greatest + 1, greatest + 2, -2**70, 2**70):
                self.assertRaises(OverflowError, call, [value] if is_list else value)
                if is_list:
                    self.assertRaises(OverflowError, call, iter([0, 1, value]))
            for value in bounds:
                call([value] if is_list else value)
        self.each_argument(check)

    def test_no_numbers(self):
        def check(_, is_list, call):
            for value in NO_NUMBERS:
                self.assertRaises(TypeError, call, [0, value] if is_list else value)
            for value in (0, 1.0, None, object(), "text", {"text": 1}) if is_list else ():
                self.assertRaises(TypeError, call, value)
        self.each_argument(check)


class Inputs(unittest.TestCase):
    def test_kinds(self):
        self.assertEqual(len(ENTRIES), 13)
        for function, (args, _, lists) in ENTRIES.items():
            wanted = function(*args)
            for kind in (tuple, iter, lambda values: array("q", values), lambda values: memoryview(array("i", values)), lambda values: (n for n in values)):
                given = args[:len(args) - len(lists)] + [kind(values) for values in args[len(args) - len(lists):]]
                self.assertEqual(function(*given), wanted, function.__name__)

    def test_views(self):
        for code in "bBhHiIlLqQ":
            for view in (array(code, [1, 4, 64]), memoryview(array(code, [1, 4, 64])), memoryview(array(code, [1, 9, 4, 9, 64]))[::2]):
                self.assertEqual(haafgrim.from_two_powers(view), 69, code)
                self.assertEqual(haafgrim.transpose(1, 3, view), b"\1\4\x40", code)
        for code in "fd":
            self.assertRaises(TypeError, haafgrim.from_two_powers, array(code, [1]))
        self.assertRaises(OverflowError, haafgrim.from_two_powers, memoryview(array("i", [-1])))
        self.assertRaises(OverflowError, haafgrim.dimacs, 1, 1, memoryview(array("I", [2**31])))
        self.assertRaises(TypeError, haafgrim.read_line, memoryview(b"\1").cast("c"))
        self.assertEqual(haafgrim.transpose(2, 2, memoryview(b"abcd").cast("B", (2, 2))), b"acbd")
        self.assertEqual(haafgrim.from_two_powers((ctypes.c_uint32 * 2)(1, 4)), 5)
        self.assertRaises(TypeError, haafgrim.read_line, memoryview(b"\1").cast("B", ()))
        with memoryview(b"\1") as released:
            pass
        self.assertRaises(ValueError, haafgrim.read_line, released)

    def test_bytes_are_numbers(self):
        self.assertEqual(haafgrim.clauses(bytes(CELL)).tolist(), CELL_CLAUSES)
        self.assertEqual(haafgrim.from_two_powers(bytearray(b"\1\2\4\x80")), 135)

    def test_nothing(self):
        for empty in ([], b"", bytearray(), array("I"), array("d"), memoryview(b""), iter(())):
            self.assertEqual(haafgrim.from_two_powers(empty), 0)
            self.assertEqual(haafgrim.starts(1, empty), (2, 0, []))
            self.assertEqual(haafgrim.dimacs(0, 0, empty), b"p cnf 0 0\n")
        self.assertEqual(haafgrim.two_powers(0), [])
        self.assertEqual(haafgrim.read_line([0]), [])

    def test_inputs_stay(self):
        puzzle, model = array("I", DIAGONALS), bytearray(FALLING)
        self.assertIsNot(haafgrim.transpose(2, 6, model), model)
        haafgrim.blocking(puzzle, model)
        self.assertEqual((puzzle.tolist(), list(model)), (DIAGONALS, FALLING))
        model.append(0)  # nothing holds on to it

    def test_grid(self):
        self.assertEqual(haafgrim.grid([[1, 2, 3], b"\4\5\6"]), (3, 2, b"\1\2\3\4\5\6"))
        self.assertEqual(haafgrim.grid([]), (0, 0, b""))
        self.assertRaises(ValueError, haafgrim.grid, [[1, 2], [3]])
        self.assertRaises(OverflowError, haafgrim.grid, [[256]])
        self.assertRaises(TypeError, haafgrim.grid, [1, 2])

    def test_numbers_that_run_code(self):
        cells, words = bytearray(4), []

        class Sly:
            def __index__(self):
                cells.clear()
                words.clear()
                return 2

        self.assertEqual(answer(haafgrim.read_grid, Sly(), 2, cells), (7, 0))
        words += [Sly(), 4, 8]
        self.assertEqual(haafgrim.from_two_powers(words), 2)

    def test_lists_that_lie(self):
        class Long(list):
            def __len__(self):
                return 10**6

        class Shorn(array):
            def __len__(self):
                return 10**6

            def tobytes(self):
                return b"\7"

            def buffer_info(self):
                return 0, 10**6

        class Large(int):
            def __index__(self):
                return 2**40

        self.assertEqual(haafgrim.from_two_powers(Long([1, 2])), 3)
        self.assertEqual(haafgrim.from_two_powers(Shorn("I", [1, 2])), 3)
        self.assertEqual(haafgrim.from_two_powers([Large(1), True]), 1)
        self.assertEqual(haafgrim.two_powers(Large(1)), [1])


class SecondWay(unittest.TestCase):
    """Random input against a calculation of a line or two."""

    def setUp(self):
        self.random = random.Random(1)

    def cells(self, count, colors):
        return [self.random.choice((0, 0, self.random.randint(1, colors))) for _ in range(count)]

    def runs(self, line):
        return [(len(list(run)), color) for color, run in groupby(line) if color]

    def test_masks(self):
        for _ in range(300):
            mask = self.random.getrandbits(32) & self.random.getrandbits(32)
            powers = [2**k for k in range(32) if mask >> k & 1]
            self.assertEqual(haafgrim.two_powers(mask), powers)
            self.assertEqual(haafgrim.from_two_powers(powers), mask)

    def test_lines(self):
        for _ in range(300):
            line = self.cells(self.random.randint(1, 64), 3)
            self.assertEqual(haafgrim.read_line(line), self.runs(line))

    def test_grids(self):
        for _ in range(100):
            width, height = self.random.randint(1, 64), self.random.randint(1, 64)
            rows = [self.cells(width, self.random.choice((1, 31))) for _ in range(height)]
            columns = list(zip(*rows))
            colors = {color for row in rows for color in row} - {0} or {1}
            words = []
            for lines in (columns, rows):
                words.append(len(lines))
                for clue in map(self.runs, lines):
                    words += [len(clue)] + [n for run in clue for n in run]
            words += [width * height] + [1 + sum(2**color for color in colors)] * (width * height)
            self.assertEqual(haafgrim.transpose(*haafgrim.grid(rows)), b"".join(map(bytes, columns)))
            self.assertEqual(haafgrim.read_grid(*haafgrim.grid(rows)).tolist(), words)

    def test_texts(self):
        for _ in range(100):
            sections = [[[self.random.choice((-1, 1)) * self.random.randint(1, 10**6) for _ in range(self.random.randint(0, 4))]
                         for _ in range(self.random.randint(0, 9))] for _ in range(self.random.randint(0, 16))]
            words = [n for section in sections for n in [len(section)] + [n for clause in section for n in [len(clause)] + clause]]
            lines = ["p cnf 1000000 {}".format(sum(map(len, sections)))] + [" ".join(map(str, clause + [0])) for section in sections for clause in section]
            self.assertEqual(haafgrim.dimacs(10**6, len(sections), words).decode(), "".join(line + "\n" for line in lines))


class Threads(unittest.TestCase):
    def answers(self, seed):
        cells = random.Random(seed).choices((0, 1, 2), k=48)
        puzzle = haafgrim.read_grid(8, 6, cells)
        return puzzle, haafgrim.clauses(puzzle), haafgrim.dimacs(10**6, 10, haafgrim.clauses(puzzle)), answer(haafgrim.check_model, puzzle, [0])

    def test_at_the_same_time_as_alone(self):
        alone = list(map(self.answers, range(64)))
        with ThreadPoolExecutor(8) as pool:
            self.assertEqual(list(pool.map(self.answers, range(64))), alone)

    def test_input_that_another_thread_changes(self):
        """Each text is of the words before or after a change, though the library is called twice."""
        short, long = (array("i", [1, 50000]) + array("i", [n]) * 50000 for n in (1, -10**6))
        words, texts, done = short[:], {haafgrim.dimacs(10**6, 1, short), haafgrim.dimacs(10**6, 1, long)}, threading.Event()

        def change():
            while not done.is_set():
                words[:] = long
                words[:] = short

        thread = threading.Thread(target=change)
        thread.start()
        try:
            for _ in range(100):
                self.assertIn(haafgrim.dimacs(10**6, 1, words), texts)
        finally:
            done.set()
            thread.join()


class AllPictures(unittest.TestCase):
    """How a publisher asks whether a puzzle has one picture; trying all models stands in for a solver."""

    def solve(self, puzzle, blocked):
        for model in product((0, 1), repeat=haafgrim.counts(puzzle).variables):
            if all(any(model[abs(v) - 1] == (v > 0) for v in clause[1:]) for clause in blocked) and isinstance(answer(haafgrim.check_model, puzzle, model), bytes):
                return model
        return None

    def pictures(self, rows):
        puzzle = haafgrim.read_grid(*haafgrim.grid(rows))
        found, blocked = [], []
        while model := self.solve(puzzle, blocked):
            found.append(haafgrim.check_model(puzzle, model))
            blocked.append(haafgrim.blocking(puzzle, model))
        return found

    def test_two_pictures(self):
        self.assertCountEqual(self.pictures([[1, 0], [0, 1]]), [b"\1\0\0\1", b"\0\1\1\0"])

    def test_one_picture(self):
        self.assertEqual(self.pictures([[1, 2], [0, 1]]), [b"\1\2\0\1"])


if __name__ == "__main__":
    unittest.main()
