//! The table of intended differences in docs/DIFFERENCES.md, each row with its input: what the Rust does there, and what the library answers.

use crate::{
    puzzle::Puzzle,
    rust::{self, unless_panic, Encoder, Kind},
    tally::Tally,
};
use haafgrim::Refusal;
use nonogrid::block::{binary::BinaryBlock, multicolor::ColoredBlock};

fn refused<T>(answer: Result<T, Refusal>, number: u32, place: usize) -> bool {
    answer.err() == Some(Refusal { number, place })
}

fn cell(masks: Vec<u32>) -> Puzzle {
    Puzzle { columns: vec![vec![(1, 1)]], rows: vec![vec![(1, 1)]], masks }
}

/// Whether the Rust's clauses have a model whose grid has no cell of that colour.
fn lacks(puzzle: &Puzzle, color: u8) -> bool {
    let encoder = Encoder::<ColoredBlock>::new(puzzle);
    let clauses = encoder.clauses();
    let assignments =
        (0..1_u32 << encoder.variables()).map(|word| (0..encoder.variables()).map(|v| (word >> v & 1) as u8).collect::<Vec<u8>>());
    let models: Vec<_> = assignments.filter(|model| rust::false_clause(&clauses, model).is_none()).collect();
    let (_, pictures) = encoder.run(&vec![], &models);
    pictures.iter().any(|picture| !picture.contains(&color))
}

pub fn compare(tally: &mut Tally) {
    let split = Puzzle { columns: vec![vec![(1, 1)], vec![(1, 2)]], rows: vec![vec![(1, 1)], vec![]], masks: vec![3; 4] };
    let (p8, solved, no_mask) = (cell(vec![3]), cell(vec![4]), cell(vec![]));
    let probe = |claim| unless_panic(|| Encoder::<ColoredBlock>::new(&p8).implications(claim, &[])).err();
    let jagged = nonogrid::utils::transpose(&[vec![1, 2], vec![3]]).is_err();
    let no_ranges = BinaryBlock::clue(&[(1, 1)]).color_ranges(2).is_empty();
    let dropped = BinaryBlock::clue(&[(0, 1)]).vec.is_empty();
    let rows = [
        (
            "a clue too long",
            refused(haafgrim::starts(2, &[1, 1, 1, 1]), 6, 0) && rust::starts::<BinaryBlock>(2, &[(1, 1), (1, 1)]) == Err(6),
        ),
        ("size 0", refused(haafgrim::starts(2, &[0, 1]), 4, 0) && dropped),
        ("ranges of a binary clue", haafgrim::color_ranges(2, &[1, 1]).is_ok_and(|ranges| ranges[0] == (0..2)) && no_ranges),
        ("rows of different lengths", refused(haafgrim::transpose(2, 2, &[1, 2, 3]), 7, 3) && jagged),
        ("a column's colour that no row has", refused(haafgrim::clauses(&split.words()), 9, 1) && lacks(&split, 2)),
        (
            "a cell's colour that no row has",
            refused(haafgrim::clauses(&solved.words()), 10, 0) && rust::clause_count::<ColoredBlock>(&solved) == Err(10),
        ),
        ("no mask", refused(haafgrim::clauses(&no_mask.words()), 7, 8) && rust::clause_count::<BinaryBlock>(&no_mask) == Err(17)),
        ("a probe off the grid", refused(haafgrim::probes(&p8.words(), &[1, 5]), 17, 1) && probe((5, 0, 1)) == Some(17)),
        (
            "a probe's colour that no row has",
            refused(haafgrim::probes(&p8.words(), &[1, 0, 0, 2, 0]), 19, 3) && probe((0, 0, 2)) == Some(19),
        ),
    ];
    for (row, holds) in rows {
        tally.equal(&format!("intended: {row}"), &[], &[holds], &[true]);
    }
}
