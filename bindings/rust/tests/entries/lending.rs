//! What the entries leave of lent buffers, and of what lies around them.

use super::{refused, CELL, CELL_CLAUSES, CELL_TEXT, DIAGONALS, FALLING};
use haafgrim::{lent, Refusal};
use std::fmt::Debug;

/// Lends buffers of many lengths in the midst of marks, to an entry that writes these words or is refused.
fn lends<T: Copy + Debug + PartialEq>(mark: T, want: Result<&[T], Refusal>, entry: impl Fn(&mut [T]) -> Result<usize, Refusal>) {
    for room in 0..want.map_or(0, <[T]>::len) + 70 {
        let verdict = want.and_then(|words| if room < words.len() { refused(12, words.len()) } else { Ok(words) });
        let mut after = vec![mark; room + 4];
        if let Ok(words) = verdict {
            after[2..2 + words.len()].copy_from_slice(words);
        }
        let mut memory = vec![mark; room + 4];
        assert_eq!(entry(&mut memory[2..2 + room]), verdict.map(<[T]>::len), "{room} lent");
        assert_eq!(memory, after, "{room} lent");
    }
}

#[test]
fn acceptance_leaves_the_rest() {
    let mut ranges = [0; 62];
    ranges[..4].copy_from_slice(&[0, 3, 2, 4]);
    lends(7, Ok(&[]), |out| lent::two_powers(0, out));
    lends(7, Ok(&[1, 4, 1 << 31]), |out| lent::two_powers(5 | 1 << 31, out));
    lends(7, Ok(&[]), |out| lent::read_line(&[0], out));
    lends(7, Ok(&[2, 1, 1, 2]), |out| lent::read_line(&[0, 0, 1, 1, 0, 2], out));
    lends(7, Ok(&[4, 7, 0, 4, 6]), |out| lent::starts(10, &[3, 1, 2, 1, 1, 2], out));
    lends(7, Ok(&ranges), |out| lent::color_ranges(4, &[2, 1, 1, 2], out));
    lends(7, Ok(&DIAGONALS), |out| lent::read_grid(2, 2, &[0, 1, 1, 0], out));
    lends(7, Ok(&[9, 6, 8, 5]), |out| lent::transpose(2, 2, &[9, 8, 6, 5], out));
    lends(7, Ok(&CELL_CLAUSES), |out| lent::clauses(&CELL, out));
    lends(7, Ok(&[3, 1, 1, 0, 0, 0, 0, 2, 2, 0, 0, 10, 26]), |out| lent::counts(&CELL, out));
    lends(7, Ok(&[1, 0, 0, 1]), |out| lent::check_model(&DIAGONALS, &FALLING, out));
    lends(7, Ok(&[2, -9, -12]), |out| lent::blocking(&DIAGONALS, &FALLING, out));
    lends(7, Ok(&[1, 2, -9, 12]), |out| lent::probes(&DIAGONALS, &[1, 0, 0, 1, 1, 1, 1, 1], out));
    lends(7, Ok(CELL_TEXT), |out| lent::dimacs(3, 10, &CELL_CLAUSES, out));
}

#[test]
fn a_refusal_leaves_everything() {
    lends(7, refused(18, 2), |out| lent::read_line(&[1, 2, 32], out));
    lends(7, refused(6, 0), |out| lent::starts(1, &[1, 1, 1, 1], out));
    lends(7, refused(5, 3), |out| lent::color_ranges(9, &[1, 1, 1, 0], out));
    lends(7, refused(18, 3), |out| lent::read_grid(2, 2, &[1, 1, 1, 99], out));
    lends(7, refused(7, 3), |out| lent::transpose(2, 2, &[1, 1, 1], out));
    lends(7, refused(1, 18), |out| lent::clauses(&DIAGONALS[..18], out));
    lends(7, refused(1, 18), |out| lent::counts(&DIAGONALS[..18], out));
    lends(7, refused(15, 0), |out| lent::check_model(&DIAGONALS, &[0; 12], out));
    lends(7, refused(13, 12), |out| lent::blocking(&DIAGONALS, &[0; 11], out));
    lends(7, refused(17, 6), |out| lent::probes(&DIAGONALS, &[1, 0, 0, 1, 1, 0, 2, 1], out));
    lends(7, refused(22, 25), |out| lent::dimacs(3, 10, &CELL_CLAUSES[..25], out));
}

#[test]
fn nothing_given_and_nothing_lent() {
    assert_eq!(lent::two_powers(0, &mut []), Ok(0));
    assert_eq!(lent::from_two_powers(&[]), 0);
    assert_eq!(lent::read_line(&[], &mut []), refused(2, 0));
    assert_eq!(lent::starts(1, &[], &mut []), refused(12, 2));
    assert_eq!(lent::color_ranges(1, &[], &mut []), refused(12, 62));
    assert_eq!(lent::read_grid(1, 1, &[], &mut []), refused(7, 0));
    assert_eq!(lent::transpose(1, 1, &[], &mut []), refused(7, 0));
    assert_eq!(lent::clauses(&[], &mut []), refused(1, 0));
    assert_eq!(lent::counts(&[], &mut []), refused(1, 0));
    assert_eq!(lent::check_model(&[], &[], &mut []), refused(1, 0));
    assert_eq!(lent::blocking(&CELL, &[], &mut []), refused(13, 3));
    assert_eq!(lent::probes(&CELL, &[], &mut []), refused(1, 0));
    assert_eq!(lent::dimacs(0, 0, &[], &mut []), refused(12, 10));
}
