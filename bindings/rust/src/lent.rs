//! The entries as C has them, on buffers that the caller lends. Nothing is allocated. Acceptance answers how many elements
//! were written, at the front, and leaves the rest; a refusal leaves the whole buffer as it was. Too short a buffer is refused
//! with 12, and the place says how many elements are needed.

use crate::Refusal;

/// The C functions, as include/haafgrim.h declares them.
mod raw {
    #[rustfmt::skip]
    extern "C" {
        pub fn haafgrim_two_powers(mask: u32, out: *mut u32, out_len: usize, place: *mut usize) -> u32;
        pub fn haafgrim_from_two_powers(words: *const u32, words_len: usize) -> u32;
        pub fn haafgrim_read_line(line: *const u8, line_len: usize, out: *mut u32, out_len: usize, place: *mut usize) -> u32;
        pub fn haafgrim_starts(length: usize, clue: *const u32, clue_len: usize, out: *mut u32, out_len: usize, place: *mut usize) -> u32;
        pub fn haafgrim_color_ranges(length: usize, clue: *const u32, clue_len: usize, out: *mut u32, out_len: usize, place: *mut usize) -> u32;
        pub fn haafgrim_read_grid(width: usize, height: usize, grid: *const u8, grid_len: usize, out: *mut u32, out_len: usize, place: *mut usize) -> u32;
        pub fn haafgrim_transpose(width: usize, height: usize, grid: *const u8, grid_len: usize, out: *mut u8, out_len: usize, place: *mut usize) -> u32;
        pub fn haafgrim_clauses(puzzle: *const u32, puzzle_len: usize, out: *mut i32, out_len: usize, place: *mut usize) -> u32;
        pub fn haafgrim_counts(puzzle: *const u32, puzzle_len: usize, out: *mut u64, out_len: usize, place: *mut usize) -> u32;
        pub fn haafgrim_check_model(puzzle: *const u32, puzzle_len: usize, model: *const u8, model_len: usize, out: *mut u8, out_len: usize, place: *mut usize) -> u32;
        pub fn haafgrim_blocking(puzzle: *const u32, puzzle_len: usize, model: *const u8, model_len: usize, out: *mut i32, out_len: usize, place: *mut usize) -> u32;
        pub fn haafgrim_probes(puzzle: *const u32, puzzle_len: usize, probe: *const u32, probe_len: usize, out: *mut i32, out_len: usize, place: *mut usize) -> u32;
        pub fn haafgrim_dimacs(variables: usize, sections: usize, words: *const i32, words_len: usize, out: *mut u8, out_len: usize, place: *mut usize) -> u32;
    }
}

/// Calls an entry with its numbers and its slices (each a pointer and a length), then the lent buffer and the place.
///
/// Sound for all of them: a slice's pointer is aligned and valid for its length; `out` and the place are borrowed alone, so they
/// overlap no input and not each other; and the entries, for which this is enough, write nothing else and keep no state.
macro_rules! call {
    ($entry:ident, [$($number:ident),*], [$($slice:ident),*], $out:ident) => {{
        let mut place = 0;
        let number = unsafe { raw::$entry($($number,)* $($slice.as_ptr(), $slice.len(),)* $out.as_mut_ptr(), $out.len(), &mut place) };
        if number == 0 { Ok(place) } else { Err(Refusal { number, place }) }
    }};
}

/// As [`crate::two_powers`]; needs a word for each set bit, at most 32.
pub fn two_powers(mask: u32, out: &mut [u32]) -> Result<usize, Refusal> {
    call!(haafgrim_two_powers, [mask], [], out)
}

/// As [`crate::from_two_powers`].
pub fn from_two_powers(words: &[u32]) -> u32 {
    // Sound as in `call`; nothing is lent.
    unsafe { raw::haafgrim_from_two_powers(words.as_ptr(), words.len()) }
}

/// As [`crate::read_line`]; needs two words for each run, at most 128.
pub fn read_line(line: &[u8], out: &mut [u32]) -> Result<usize, Refusal> {
    call!(haafgrim_read_line, [], [line], out)
}

/// As [`crate::starts`]; needs two words and one for each block, at most 66.
pub fn starts(length: usize, clue: &[u32], out: &mut [u32]) -> Result<usize, Refusal> {
    call!(haafgrim_starts, [length], [clue], out)
}

/// As [`crate::color_ranges`]; needs 62 words, a first cell and an end for each colour.
pub fn color_ranges(length: usize, clue: &[u32], out: &mut [u32]) -> Result<usize, Refusal> {
    call!(haafgrim_color_ranges, [length], [clue], out)
}

/// As [`crate::read_grid`]; needs at most 20,611 words.
pub fn read_grid(width: usize, height: usize, grid: &[u8], out: &mut [u32]) -> Result<usize, Refusal> {
    call!(haafgrim_read_grid, [width, height], [grid], out)
}

/// As [`crate::transpose`]; needs as many bytes as the grid has.
pub fn transpose(width: usize, height: usize, grid: &[u8], out: &mut [u8]) -> Result<usize, Refusal> {
    call!(haafgrim_transpose, [width, height], [grid], out)
}

/// As [`crate::clauses`]; needs as many words as [`counts`] writes last.
pub fn clauses(puzzle: &[u32], out: &mut [i32]) -> Result<usize, Refusal> {
    call!(haafgrim_clauses, [], [puzzle], out)
}

/// As [`crate::counts`]; needs 13 words: the variables, the clauses of each section, the literals, the words.
pub fn counts(puzzle: &[u32], out: &mut [u64]) -> Result<usize, Refusal> {
    call!(haafgrim_counts, [], [puzzle], out)
}

/// As [`crate::check_model`]; needs a byte for each cell, at most 4,096.
pub fn check_model(puzzle: &[u32], model: &[u8], out: &mut [u8]) -> Result<usize, Refusal> {
    call!(haafgrim_check_model, [], [puzzle, model], out)
}

/// As [`crate::blocking`]; needs a word and one for each coloured cell, at most 4,097.
pub fn blocking(puzzle: &[u32], model: &[u8], out: &mut [i32]) -> Result<usize, Refusal> {
    call!(haafgrim_blocking, [], [puzzle, model], out)
}

/// As [`crate::probes`]; needs a word and at most 1,023 for each impact.
pub fn probes(puzzle: &[u32], probe: &[u32], out: &mut [i32]) -> Result<usize, Refusal> {
    call!(haafgrim_probes, [], [puzzle, probe], out)
}

/// As [`crate::dimacs`]; needs as many bytes as the text has.
pub fn dimacs(variables: usize, sections: usize, words: &[i32], out: &mut [u8]) -> Result<usize, Refusal> {
    call!(haafgrim_dimacs, [variables, sections], [words], out)
}
