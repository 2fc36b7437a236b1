"""Nonogram clues to SAT clauses and back: the proved library Haafgrim.

Every function takes any numbers and gives what it was asked for, or raises the one Refusal that the library answers. Numbers that the library's words
cannot hold raise OverflowError, and what is no whole number raises TypeError, before the library is called.

A colour is a number 1 to 31, and 0 is blank. A grid is its cells' colours row by row; `grid` makes one of rows. A clue is a size and a colour for each
block. A puzzle is words such as `read_grid` gives; the scope document has their layout. Its colours are those of the blocks of its rows, or colour 1 where
there are none. A list of numbers is any iterable: bytes and arrays of the right type are the quickest. Cells and text come back as bytes, the words of
puzzles and clauses as an array. The library is asked first how long a result is, so it does its checks twice.

    puzzle = haafgrim.read_grid(*haafgrim.grid([[1, 0], [0, 1]]))
    text = haafgrim.dimacs(haafgrim.counts(puzzle).variables, 10, haafgrim.clauses(puzzle))
    picture = haafgrim.check_model(puzzle, model_of_a_solver)

bindings/python/build makes the shared object; HAAFGRIM_SO names another one.
"""
import ctypes
import os
from array import array
from ctypes import POINTER, byref, c_size_t, c_uint32, c_void_p
from operator import index
from pathlib import Path
from typing import NamedTuple

_BUILT = Path(__file__).resolve().parents[2] / "target" / "bindings" / "python" / "libhaafgrim.so"
_LIBRARY = ctypes.CDLL(os.environ.get("HAAFGRIM_SO") or str(_BUILT))

# The array codes by size: C leaves the sizes of its types open.
_U8, _U32, _U64 = (next(code for code in "BHILQ" if array(code).itemsize == size) for size in (1, 4, 8))
_I32 = _U32.lower()

_OUTPUT_TOO_SHORT = 12


class Refusal(Exception):
    """A refusal: its number and its place, as the table in docs/STATEMENTS.md has them."""

    def __init__(self, number, place):
        super().__init__(number, place)
        self.number, self.place = number, place

    def __str__(self):
        return f"refused {self.number} at {self.place}"


class Starts(NamedTuple):
    """Where the blocks of a clue can be: the positions of each, the cells that the clue takes at least, and the first position of each block."""
    positions: int
    space: int
    starts: list


class Counts(NamedTuple):
    """How much there is of a puzzle's clauses: variables, clauses of each of the ten sections, all literals, and words."""
    variables: int
    clauses: list
    literals: int
    words: int


def _number(kind, value):
    """The value as a number of C; ctypes alone would cut off what is too large."""
    number = index(value)
    if kind(number).value != number:
        raise OverflowError(f"{number} is not within {8 * ctypes.sizeof(kind)} bits without a sign")
    return number


def _copy(code, values):
    """The values as an array that nobody else can change during a call; the array tests that each is within its word."""
    try:
        with memoryview(values) as view:
            if view.format == code and view.ndim > 0:
                return array(code, view.tobytes())
    except TypeError:
        pass  # no memory to look at: an iterable, or an error below
    return array(code, map(index, values))


def _slices(copies):
    """Each array's address and length."""
    return [part for copy in copies for part in copy.buffer_info()]


def _entry(name, numbers, slices, result):
    """The entry of C as a function: it takes numbers, then slices, and gives an array of what was written, or raises a Refusal."""
    entry = getattr(_LIBRARY, "haafgrim_" + name)
    entry.argtypes = [*numbers, *[c_void_p, c_size_t] * len(slices), c_void_p, c_size_t, POINTER(c_size_t)]
    entry.restype = c_uint32

    def call(*values):
        given = list(map(_number, numbers, values))
        copies = list(map(_copy, slices, values[len(numbers):]))
        place, out = c_size_t(), array(result)
        number = entry(*given, *_slices(copies), *_slices([out]), byref(place))
        if number == _OUTPUT_TOO_SHORT:
            out = array(result, [0]) * place.value
            number = entry(*given, *_slices(copies), *_slices([out]), byref(place))
        if number != 0:
            raise Refusal(number, place.value)
        return out

    return call


_two_powers = _entry("two_powers", [c_uint32], [], _U32)
_read_line = _entry("read_line", [], [_U8], _U32)
_starts = _entry("starts", [c_size_t], [_U32], _U32)
_color_ranges = _entry("color_ranges", [c_size_t], [_U32], _U32)
_read_grid = _entry("read_grid", [c_size_t, c_size_t], [_U8], _U32)
_transpose = _entry("transpose", [c_size_t, c_size_t], [_U8], _U8)
_clauses = _entry("clauses", [], [_U32], _I32)
_counts = _entry("counts", [], [_U32], _U64)
_check_model = _entry("check_model", [], [_U32, _U8], _U8)
_blocking = _entry("blocking", [], [_U32, _U8], _I32)
_probes = _entry("probes", [], [_U32, _U32], _I32)
_dimacs = _entry("dimacs", [c_size_t, c_size_t], [_I32], _U8)
_LIBRARY.haafgrim_from_two_powers.argtypes = [c_void_p, c_size_t]
_LIBRARY.haafgrim_from_two_powers.restype = c_uint32


def grid(rows):
    """Rows of colours as the width, the height and the cells that `read_grid` and `transpose` take. Rows of different lengths raise ValueError."""
    rows = [_copy(_U8, row) for row in rows]
    width = len(rows[0]) if rows else 0
    if any(len(row) != width for row in rows):
        raise ValueError("the rows have different lengths")
    return width, len(rows), b"".join(rows)


def two_powers(mask):
    """The set bits of a mask as powers of two, lowest first. Never refuses."""
    return _two_powers(mask).tolist()


def from_two_powers(words):
    """The words joined by or; 0 for none. Never refuses."""
    copy = _copy(_U32, words)
    return _LIBRARY.haafgrim_from_two_powers(*copy.buffer_info())


def read_line(line):
    """The maximal runs of one colour in a line of colours, as pairs of size and colour.

    Refuses 2, a line of no cells or of over 64; 18, a colour over 31.
    """
    words = _read_line(line)
    return list(zip(words[::2], words[1::2]))


def starts(length, clue):
    """Where the blocks of a clue can be on a line of `length` cells, as Starts. The clue is a size and a colour for each block.

    Refuses 2, a length of 0 or over 64; 1, an odd number of words; 3, over 64 blocks; 4, a size of 0; 5, a colour that is not 1 to 31; 6, a clue that
    the line has no space for.
    """
    positions, space, *first = _starts(length, clue)
    return Starts(positions, space, first)


def color_ranges(length, clue):
    """The cells that each colour can have, for a clue on a line of `length` cells: 31 ranges, that of colour k at k - 1.

    A colour that the clue lacks has range(0, 0). Refuses as `starts` does.
    """
    words = _color_ranges(length, clue)
    return list(map(range, words[::2], words[1::2]))


def read_grid(width, height, cells):
    """The words of the puzzle that a grid of colours solves: its columns' and rows' clues, and masks that leave every cell open.

    Refuses 2, a width (place 0) or height (place 1) of 0 or over 64; 7, a grid that is not of width times height cells; 18, a colour over 31.
    """
    return _read_grid(width, height, cells)


def transpose(width, height, cells):
    """The columns of a grid as rows, of any bytes. Refuses 2 and 7, as `read_grid` does."""
    return _transpose(width, height, cells).tobytes()


def clauses(puzzle):
    """The clauses of a puzzle: ten sections, each its number of clauses, then for each clause its number of literals and its literals, v or -v.

    Variables count from 1: by column, block and position; then by row, block and position; then by cell and colour.

    Refuses words that are no puzzle: 1, a word is missing; 2, a width or height of 0 or over 64; 3, over 64 blocks in a line; 4, a size of 0; 5, a colour
    that is not 1 to 31; 7, a number of cells that is not width times height; 8, a mask of 0; 11, words left over; 6, a clue that its line has no space
    for; 9, a column's or 10, a solved cell's colour that is none of the puzzle's.
    """
    return _clauses(puzzle)


def counts(puzzle):
    """How many variables, clauses, literals and words `clauses` has for a puzzle, as Counts. Refuses as it does."""
    variables, *sections, literals, words = _counts(puzzle)
    return Counts(variables, sections, literals, words)


def check_model(puzzle, model):
    """The picture that a model of a puzzle shows, one colour for each cell. The model is a 0 or 1 for each variable.

    Refuses words that are no puzzle, as `clauses` does; then 13, a model of another length (the place is the right one); 14, a byte that is neither 0
    nor 1; 15, a clause that is false (the place is the first such, counted from 0 over all sections).
    """
    return _check_model(puzzle, model).tobytes()


def blocking(puzzle, model):
    """The clause that rules out the picture that a model shows: its number of literals and its literals. Refuses as `check_model` does."""
    return _blocking(puzzle, model)


def probes(puzzle, probe):
    """What colours of cells were found to imply, as one section of clauses.

    Probe words are the number of probes; for each its x, y, colour (0 for blank) and number of impacts; then for each impact its x, y and colour. An
    impact of a colour that is none of the puzzle's is left out.

    Refuses words that are no puzzle, as `clauses` does; then, with places in the probe words, 20, over 1,048,576 of them; 1, a word is missing; 17, a
    point off the grid; 18, a colour over 31; 19, a probe's colour that is none of the puzzle's; 11, words left over.
    """
    return _probes(puzzle, probe)


def dimacs(variables, sections, words):
    """Clause words of `sections` sections over the variables 1 to `variables`, as DIMACS CNF text.

    Refuses 21, over 1,000,000 variables (place 0), 16 sections (1) or 1,073,741,824 words (2); 22, the first word that is wrong or left over, or the
    number of words where one is missing.
    """
    return _dimacs(variables, sections, words).tobytes()
