//! Every refusal that an entry gives, with its place, and no other number.

use super::{changed, refused, CELL, CELL_CLAUSES, DIAGONALS, FALLING};
use haafgrim::*;
use std::collections::BTreeSet;

/// An answer, and the number and the place that it must be refused with.
type Row = (Result<(), Refusal>, u32, usize);

fn lines() -> Vec<Row> {
    let mut rows = Vec::new();
    for (cells, number, place) in [(vec![], 2, 0), (vec![1; 65], 2, 0), (vec![31, 32], 18, 1), (vec![0, 0, 255], 18, 2)] {
        rows.push((read_line(&cells).map(drop), number, place));
    }
    for (length, clue, number, place) in [
        (0, vec![], 2, 0),
        (65, vec![1], 2, 0),
        (usize::MAX, vec![1, 1], 2, 0),
        (64, vec![1, 1, 1], 1, 3),
        (64, vec![1; 130], 3, 0),
        (64, vec![1, 1, 0, 1], 4, 2),
        (64, vec![1, 0], 5, 1),
        (64, vec![1, 32], 5, 1),
        (2, vec![1, 1, 1, 1], 6, 0),
        (64, vec![u32::MAX, 1, 2, 1], 6, 0),
    ] {
        rows.push((starts(length, &clue).map(drop), number, place));
        rows.push((color_ranges(length, &clue).map(drop), number, place));
    }
    rows
}

fn grids() -> Vec<Row> {
    let mut rows = vec![(read_grid(2, 1, &[31, 32]).map(drop), 18, 1)];
    for (width, height, cells, number, place) in [
        (0, 0, 0, 2, 0),
        (65, 0, 0, 2, 0),
        (usize::MAX, usize::MAX, 1, 2, 0),
        (1, 0, 0, 2, 1),
        (64, 65, 64 * 65, 2, 1),
        (1, usize::MAX, 1, 2, 1),
        (2, 2, 0, 7, 0),
        (2, 2, 5, 7, 5),
    ] {
        rows.push((read_grid(width, height, &vec![1; cells]).map(drop), number, place));
        rows.push((transpose(width, height, &vec![1; cells]).map(drop), number, place));
    }
    rows
}

/// Words that are no puzzle, in each entry that takes one; whatever else is given is worse still.
fn puzzles() -> Vec<Row> {
    let mut rows = Vec::new();
    for (words, number, place) in [
        (vec![], 1, 0),
        (CELL[..9].to_vec(), 1, 9),
        (changed(0, 65).to_vec(), 2, 0),
        (changed(4, 0).to_vec(), 2, 4),
        (changed(1, 65).to_vec(), 3, 1),
        (changed(2, 0).to_vec(), 4, 2),
        (changed(7, 32).to_vec(), 5, 7),
        (changed(2, 2).to_vec(), 6, 0),
        (changed(6, u32::MAX).to_vec(), 6, 1),
        (changed(8, 2).to_vec(), 7, 8),
        (changed(9, 0).to_vec(), 8, 9),
        (changed(3, 2).to_vec(), 9, 0),
        (changed(9, 1 << 31).to_vec(), 10, 0),
        ([&CELL[..], &[0]].concat(), 11, 10),
    ] {
        rows.push((clauses(&words).map(drop), number, place));
        rows.push((counts(&words).map(drop), number, place));
        rows.push((check_model(&words, &[2]).map(drop), number, place));
        rows.push((blocking(&words, &[2]).map(drop), number, place));
        rows.push((probes(&words, &[1]).map(drop), number, place));
    }
    rows
}

fn models() -> Vec<Row> {
    let mut rows = Vec::new();
    for (puzzle, model, number, place) in [
        (&CELL[..], &[][..], 13, 3),
        (&CELL[..], &[2; 4][..], 13, 3),
        (&CELL[..], &[0, 2, 1][..], 14, 1),
        (&CELL[..], &[0, 0, 255][..], 14, 2),
        (&CELL[..], &[1, 1, 0][..], 15, 4),
        (&CELL[..], &[0, 0, 0][..], 15, 0),
        (&DIAGONALS[..], &FALLING[..11], 13, 12),
    ] {
        rows.push((check_model(puzzle, model).map(drop), number, place));
        rows.push((blocking(puzzle, model).map(drop), number, place));
    }
    rows
}

fn implications() -> Vec<Row> {
    [
        (vec![0; 1_048_577], 20, 1_048_577),
        (vec![0; 1_048_576], 11, 1),
        (vec![], 1, 0),
        (vec![1, 0, 0, 1, 1, 0, 0], 1, 7),
        (vec![1, 2, 0, 1, 0], 17, 1),
        (vec![1, 0, 0, 1, 1, 0, u32::MAX, 1], 17, 6),
        (vec![1, 0, 0, 32, 0], 18, 3),
        (vec![1, 0, 0, 1, 1, 0, 0, 32], 18, 7),
        (vec![1, 0, 0, 2, 0], 19, 3),
        (vec![1, 0, 0, 1, 0, 9], 11, 5),
    ]
    .map(|(probe, number, place)| (probes(&DIAGONALS, &probe).map(drop), number, place))
    .into()
}

fn texts() -> Vec<Row> {
    [
        (1_000_001, 17, vec![-1], 21, 0),
        (usize::MAX, 0, vec![], 21, 0),
        (0, 17, vec![-1], 21, 1),
        (0, usize::MAX, vec![], 21, 1),
        (1, 1, vec![], 22, 0),
        (1, 1, vec![-1], 22, 0),
        (1, 1, vec![1], 22, 1),
        (1, 1, vec![1, i32::MAX, 1], 22, 3),
        (1, 1, vec![1, 1, 2], 22, 2),
        (1_000_000, 1, vec![1, 1, i32::MIN], 22, 2),
        (1, 1, vec![1, 2, 1, 0], 22, 3),
        (1, 1, vec![0, 0], 22, 1),
    ]
    .map(|(variables, sections, words, number, place)| (dimacs(variables, sections, &words).map(drop), number, place))
    .into()
}

/// 12 comes only where a buffer is lent.
fn rooms() -> Vec<Row> {
    vec![
        (lent::two_powers(u32::MAX, &mut [0; 31]).map(drop), 12, 32),
        (lent::read_line(&[1], &mut [0; 1]).map(drop), 12, 2),
        (lent::starts(1, &[], &mut [0; 1]).map(drop), 12, 2),
        (lent::color_ranges(1, &[], &mut [0; 61]).map(drop), 12, 62),
        (lent::read_grid(2, 2, &[1, 0, 0, 1], &mut [0; 18]).map(drop), 12, 19),
        (lent::transpose(2, 1, &[1, 0], &mut [0; 1]).map(drop), 12, 2),
        (lent::clauses(&CELL, &mut [0; 25]).map(drop), 12, 26),
        (lent::counts(&CELL, &mut [0; 12]).map(drop), 12, 13),
        (lent::check_model(&DIAGONALS, &FALLING, &mut [0; 3]).map(drop), 12, 4),
        (lent::blocking(&DIAGONALS, &FALLING, &mut [0; 2]).map(drop), 12, 3),
        (lent::probes(&CELL, &[0], &mut []).map(drop), 12, 1),
        (lent::dimacs(3, 10, &CELL_CLAUSES, &mut [0; 45]).map(drop), 12, 46),
    ]
}

#[test]
fn each_number_and_place() {
    let mut numbers = BTreeSet::new();
    for rows in [lines, grids, puzzles, models, implications, texts, rooms] {
        for (i, (answer, number, place)) in rows().into_iter().enumerate() {
            assert_eq!(answer, refused(number, place), "row {i}");
            numbers.insert(number);
        }
    }
    assert_eq!(numbers, (1..=22).filter(|number| *number != 16).collect());
}
