//! Tests from outside: known answers, every refusal, lent buffers, threads.

mod lending;
mod refusals;
mod threads;
mod vectors;

use haafgrim::Refusal;

/// One cell, and a block of one cell in its column and in its row: P8 of the scope document.
const CELL: [u32; 10] = [1, 1, 1, 1, 1, 1, 1, 1, 1, 3];
const CELL_CLAUSES: [i32; 26] = [1, 1, 1, 1, 1, 2, 0, 0, 0, 0, 2, 2, 1, -3, 2, 2, -3, 2, 2, -1, 3, 2, -2, 3, 0, 0];
const CELL_TEXT: &[u8] = b"p cnf 3 6\n1 0\n2 0\n1 -3 0\n2 -3 0\n-1 3 0\n-2 3 0\n";

/// Two by two cells, and a block of one cell in every line: P11, with the model of the falling diagonal.
const DIAGONALS: [u32; 19] = [2, 1, 1, 1, 1, 1, 1, 2, 1, 1, 1, 1, 1, 1, 4, 3, 3, 3, 3];
const FALLING: [u8; 12] = [1, 0, 0, 1, 1, 0, 0, 1, 1, 0, 0, 1];

fn refused<T>(number: u32, place: usize) -> Result<T, Refusal> {
    Err(Refusal { number, place })
}

/// The words of P8 with one of them changed.
fn changed(at: usize, word: u32) -> [u32; 10] {
    let mut words = CELL;
    words[at] = word;
    words
}
