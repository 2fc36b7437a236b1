//! Nonogram clues to SAT clauses and back: the proved library Haafgrim.
//!
//! Every function takes any input and answers what it was asked for, or the one [`Refusal`] that the library gives it. Results
//! are sized by asking the library first, so none of these functions answers 12, too little room, and the checks are made twice.
//! Where a buffer is at hand, [`lent`] has the same functions without allocation.
//!
//! A colour is a number 1 to 31, and 0 is blank. A grid is its cells' colours row by row. A clue is a size and a colour for each
//! block. A puzzle is words such as [`read_grid`] gives; the scope document has their layout. Its colours are those of the blocks
//! of its rows, or colour 1 where there are none.
//!
//! From a grid to clauses, to the text for a solver, and back from the solver's model:
//!
//! ```
//! # fn main() -> Result<(), haafgrim::Refusal> {
//! let puzzle = haafgrim::read_grid(2, 2, &[1, 0, 0, 1])?;
//! let mut words = haafgrim::clauses(&puzzle)?;
//! let variables = haafgrim::counts(&puzzle)?.variables as usize;
//! let text = haafgrim::dimacs(variables, 10, &words)?;
//! assert!(text.starts_with(b"p cnf 12 24\n1 2 0\n"));
//!
//! // What a solver found: it is checked, and shows a picture.
//! let model = [1, 0, 0, 1, 1, 0, 0, 1, 1, 0, 0, 1];
//! assert_eq!(haafgrim::check_model(&puzzle, &model)?, [1, 0, 0, 1]);
//!
//! // Is there another picture? The clause that rules this one out goes into an eleventh section.
//! words.push(1);
//! words.extend(haafgrim::blocking(&puzzle, &model)?);
//! let text = haafgrim::dimacs(variables, 11, &words)?;
//! assert!(text.ends_with(b"\n-9 -12 0\n"));
//!
//! // The solver finds one, so this puzzle must not be printed.
//! let other = [0, 1, 1, 0, 0, 1, 1, 0, 0, 1, 1, 0];
//! assert_eq!(haafgrim::check_model(&puzzle, &other)?, [0, 1, 1, 0]);
//! # Ok(())
//! # }
//! ```
#![deny(missing_docs, unsafe_op_in_unsafe_fn, unsafe_code)]

#[allow(unsafe_code)]
pub mod lent;

use std::{array, error, fmt, ops::Range};

/// A refusal: its number and its place, as the table in docs/STATEMENTS.md has them.
#[derive(Clone, Copy, Debug, PartialEq, Eq, Hash)]
pub struct Refusal {
    /// Why: 1 to 22.
    pub number: u32,
    /// Where: a word, a cell, a line or a length, as the number has it.
    pub place: usize,
}

impl fmt::Display for Refusal {
    fn fmt(&self, f: &mut fmt::Formatter<'_>) -> fmt::Result {
        write!(f, "refused {} at {}", self.number, self.place)
    }
}

impl error::Error for Refusal {}

/// Where the blocks of a clue can be, from [`starts`].
#[derive(Clone, Debug, PartialEq, Eq, Hash)]
pub struct Starts {
    /// How many positions each block has.
    pub positions: u32,
    /// How many cells the clue takes at least.
    pub space: u32,
    /// The first position of each block.
    pub starts: Vec<u32>,
}

/// How much there is of a puzzle's clauses, from [`counts`].
#[derive(Clone, Debug, PartialEq, Eq, Hash)]
pub struct Counts {
    /// How many variables; they count from 1.
    pub variables: u64,
    /// How many clauses in each section.
    pub clauses: [u64; 10],
    /// How many literals in all.
    pub literals: u64,
    /// How many words [`clauses`] gives.
    pub words: u64,
}

const OUTPUT_TOO_SHORT: u32 = 12;

/// Asks with no room how much is needed, and calls again with that much.
fn sized<T: Clone + Default>(entry: impl Fn(&mut [T]) -> Result<usize, Refusal>) -> Result<Vec<T>, Refusal> {
    let needed = match entry(&mut []) {
        Err(Refusal { number: OUTPUT_TOO_SHORT, place }) => place,
        answer => return answer.map(|_| Vec::new()),
    };
    let mut out = vec![T::default(); needed];
    entry(&mut out)?;
    Ok(out)
}

/// The set bits of a mask as powers of two, lowest first. Never refuses.
pub fn two_powers(mask: u32) -> Result<Vec<u32>, Refusal> {
    sized(|out| lent::two_powers(mask, out))
}

/// The words joined by or; 0 for none.
pub fn from_two_powers(words: &[u32]) -> u32 {
    lent::from_two_powers(words)
}

/// The maximal runs of one colour in a line of colours, each as its size and its colour.
///
/// Refuses 2, a line of no cells or of over 64; 18, a colour over 31.
pub fn read_line(line: &[u8]) -> Result<Vec<(u32, u32)>, Refusal> {
    let words = sized(|out| lent::read_line(line, out))?;
    Ok(words.chunks_exact(2).map(|run| (run[0], run[1])).collect())
}

/// Where the blocks of a clue can be on a line of `length` cells. The clue is a size and a colour for each block.
///
/// Refuses 2, a length of 0 or over 64; 1, an odd number of words; 3, over 64 blocks; 4, a size of 0; 5, a colour that is not
/// 1 to 31; 6, a clue that the line has no space for.
pub fn starts(length: usize, clue: &[u32]) -> Result<Starts, Refusal> {
    let words = sized(|out| lent::starts(length, clue, out))?;
    Ok(Starts { positions: words[0], space: words[1], starts: words[2..].to_vec() })
}

/// The cells that each colour can have, for a clue on a line of `length` cells: colour `k` is at `k - 1`, and a colour that the
/// clue lacks has `0..0`. Refuses as [`starts`] does.
pub fn color_ranges(length: usize, clue: &[u32]) -> Result<[Range<u32>; 31], Refusal> {
    let words = sized(|out| lent::color_ranges(length, clue, out))?;
    Ok(array::from_fn(|i| words[2 * i]..words[2 * i + 1]))
}

/// The words of the puzzle that a grid of colours solves: its columns' and rows' clues, and masks that leave every cell open.
///
/// Refuses 2, a width (place 0) or height (place 1) of 0 or over 64; 7, a grid that is not of width times height cells; 18, a
/// colour over 31.
pub fn read_grid(width: usize, height: usize, grid: &[u8]) -> Result<Vec<u32>, Refusal> {
    sized(|out| lent::read_grid(width, height, grid, out))
}

/// The columns of a grid as rows, of any bytes. Refuses 2 and 7, as [`read_grid`] does.
pub fn transpose(width: usize, height: usize, grid: &[u8]) -> Result<Vec<u8>, Refusal> {
    sized(|out| lent::transpose(width, height, grid, out))
}

/// The clauses of a puzzle: ten sections, each its number of clauses, then for each clause its number of literals and its
/// literals, `v` or `-v`.
///
/// Variables count from 1: by column, block and position; then by row, block and position; then by cell and colour.
///
/// Refuses words that are no puzzle: 1, a word is missing; 2, a width or height of 0 or over 64; 3, over 64 blocks in a line;
/// 4, a size of 0; 5, a colour that is not 1 to 31; 7, a number of cells that is not width times height; 8, a mask of 0; 11, words
/// left over; 6, a clue that its line has no space for; 9, a column's or 10, a solved cell's colour that is none of the puzzle's.
pub fn clauses(puzzle: &[u32]) -> Result<Vec<i32>, Refusal> {
    sized(|out| lent::clauses(puzzle, out))
}

/// How many variables, clauses, literals and words [`clauses`] has for a puzzle. Refuses as it does.
pub fn counts(puzzle: &[u32]) -> Result<Counts, Refusal> {
    let words = sized(|out| lent::counts(puzzle, out))?;
    Ok(Counts { variables: words[0], clauses: array::from_fn(|i| words[1 + i]), literals: words[11], words: words[12] })
}

/// The picture that a model of a puzzle shows, one colour for each cell. The model is one byte, 0 or 1, for each variable.
///
/// Refuses words that are no puzzle, as [`clauses`] does; then 13, a model of another length (the place is the right one); 14, a
/// byte that is neither 0 nor 1; 15, a clause that is false (the place is the first such, counted from 0 over all sections).
pub fn check_model(puzzle: &[u32], model: &[u8]) -> Result<Vec<u8>, Refusal> {
    sized(|out| lent::check_model(puzzle, model, out))
}

/// The clause that rules out the picture that a model shows: its number of literals and its literals. Refuses as
/// [`check_model`] does.
pub fn blocking(puzzle: &[u32], model: &[u8]) -> Result<Vec<i32>, Refusal> {
    sized(|out| lent::blocking(puzzle, model, out))
}

/// What colours of cells were found to imply, as one section of clauses.
///
/// Probe words are the number of probes; for each its x, y, colour (0 for blank) and number of impacts; then for each impact its
/// x, y and colour. An impact of a colour that is none of the puzzle's is left out.
///
/// Refuses words that are no puzzle, as [`clauses`] does; then, with places in the probe words, 20, over 1,048,576 of them; 1, a
/// word is missing; 17, a point off the grid; 18, a colour over 31; 19, a probe's colour that is none of the puzzle's; 11, words
/// left over.
pub fn probes(puzzle: &[u32], probe: &[u32]) -> Result<Vec<i32>, Refusal> {
    sized(|out| lent::probes(puzzle, probe, out))
}

/// Clause words of `sections` sections over the variables 1 to `variables`, as DIMACS CNF text.
///
/// Refuses 21, over 1,000,000 variables (place 0), 16 sections (1) or 1,073,741,824 words (2); 22, the first word that is wrong or
/// left over, or the number of words where one is missing.
pub fn dimacs(variables: usize, sections: usize, words: &[i32]) -> Result<Vec<u8>, Refusal> {
    sized(|out| lent::dimacs(variables, sections, words, out))
}
