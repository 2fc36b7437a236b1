//! The scope document's table of small puzzles done by hand, and the words that the header names.

use super::{changed, refused, CELL, CELL_CLAUSES, CELL_TEXT, DIAGONALS, FALLING};
use haafgrim::*;

#[test]
fn p1_runs() {
    assert_eq!(read_line(&[0, 0, 1, 1, 0, 2]), Ok(vec![(2, 1), (1, 2)]));
    assert_eq!(read_line(&[0; 64]), Ok(vec![]));
}

#[test]
fn p3_p4_starts() {
    for length in 3..=64 {
        let placed = |starts: &[u32]| Ok(Starts { positions: length as u32 - 2, space: 3, starts: starts.to_vec() });
        assert_eq!(starts(length, &[1, 1, 1, 1]), placed(&[0, 2]));
        assert_eq!(starts(length, &[1, 1, 1, 2, 1, 1]), placed(&[0, 1, 2]));
    }
}

#[test]
fn p5_ranges() {
    let clue = [2, 1, 1, 2];
    assert_eq!(starts(4, &clue).unwrap().positions, 2);
    let ranges = color_ranges(4, &clue).unwrap();
    assert_eq!(ranges[..2], [0..3, 2..4]);
    assert!(ranges[2..].iter().all(|range| *range == (0..0)));
    assert_eq!(color_ranges(64, &[1, 31]).unwrap()[30], 0..64);
}

#[test]
fn p8_clauses() {
    assert_eq!(clauses(&CELL).unwrap(), CELL_CLAUSES);
    assert_eq!(counts(&CELL), Ok(Counts { variables: 3, clauses: [1, 1, 0, 0, 0, 0, 2, 2, 0, 0], literals: 10, words: 26 }));
    assert_eq!(dimacs(3, 10, &CELL_CLAUSES).unwrap(), CELL_TEXT);
    assert_eq!(check_model(&CELL, &[1, 1, 1]), Ok(vec![1]));
}

/// The seven changes to the words of P8, the second with both of its words.
#[test]
fn p8_changed() {
    assert_eq!(clauses(&[]), refused(1, 0));
    assert_eq!(clauses(&[&CELL[..], &[0]].concat()), refused(11, 10));
    for (at, word, number, place) in [(0, 0, 2, 0), (0, 65, 2, 0), (2, 2, 6, 0), (3, 2, 9, 0), (9, 0, 8, 9), (9, 4, 10, 0)] {
        assert_eq!(clauses(&changed(at, word)), refused(number, place), "word {at} is {word}");
    }
}

#[test]
fn p9_too_little_room() {
    assert_eq!(lent::clauses(&CELL, &mut [0; 25]), refused(12, 26));
    assert_eq!(lent::clauses(&CELL, &mut [0; 26]), Ok(26));
}

#[test]
fn p10_counts() {
    let puzzle = [2, 1, 1, 1, 0, 1, 1, 1, 1, 2, 3, 3];
    let Counts { variables, clauses, words, .. } = counts(&puzzle).unwrap();
    assert_eq!((variables, clauses.iter().sum::<u64>(), words), (5, 10, 38));
    assert_eq!(haafgrim::clauses(&puzzle).unwrap().len(), 38);
}

#[test]
fn p11_p12_blocking() {
    assert_eq!(read_grid(2, 2, &[1, 0, 0, 1]).unwrap(), DIAGONALS);
    assert_eq!(check_model(&DIAGONALS, &FALLING), Ok(vec![1, 0, 0, 1]));
    assert_eq!(blocking(&DIAGONALS, &FALLING), Ok(vec![2, -9, -12]));
    assert_eq!(blocking(&[1, 0, 1, 0, 1, 3], &[0]), Ok(vec![0]));
}

#[test]
fn masks() {
    for mask in [0, 1, 2, 3, 1 << 31, 0x8001_0100, u32::MAX] {
        let powers = two_powers(mask).unwrap();
        assert_eq!(powers, (0..32).map(|k| 1 << k).filter(|power| mask & power != 0).collect::<Vec<u32>>());
        assert_eq!(from_two_powers(&powers), mask);
    }
    assert_eq!(from_two_powers(&[5, 3, 3]), 7);
}

#[test]
fn transposed() {
    assert_eq!(transpose(3, 2, &[1, 2, 3, 250, 251, 252]), Ok(vec![1, 250, 2, 251, 3, 252]));
}

/// A coloured probe with an impact that is kept and one of a colour that is none of the puzzle's; a blank probe with a blank impact.
#[test]
fn implications() {
    let probe = [2, 0, 0, 1, 2, 1, 1, 1, 1, 0, 7, 1, 0, 0, 1, 0, 1, 0];
    assert_eq!(probes(&DIAGONALS, &probe), Ok(vec![2, 2, -9, 12, 2, 10, -11]));
    assert_eq!(probes(&DIAGONALS, &[0]), Ok(vec![0]));
}

/// Every line of 64 cells has 64 blocks, the most there can be.
#[test]
fn largest_words() {
    let grid: Vec<u8> = (0..64 * 64).map(|i| 1 + (i % 64 + i / 64) as u8 % 31).collect();
    assert_eq!(read_line(&grid[..64]).unwrap().len(), 64);
    assert_eq!(read_grid(64, 64, &grid).unwrap().len(), 20_611);
}

#[test]
fn a_refusal_says_itself() {
    assert_eq!(clauses(&[]).unwrap_err().to_string(), "refused 1 at 0");
}
