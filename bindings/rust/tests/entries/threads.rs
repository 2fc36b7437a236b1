//! Entries at the same time on different data, and on little stack.

use haafgrim::*;
use std::{collections::BTreeSet, fmt::Debug, sync::Barrier, thread};

/// The least that is a common default for a thread, musl's. The deepest entry was measured to need 36 KiB.
const STACK: usize = 128 * 1024;

/// A grid without blanks: each block has one position, so that its model is known.
struct Full {
    width: usize,
    height: usize,
    cells: Vec<u8>,
}

impl Full {
    fn new(width: usize, height: usize, colors: usize) -> Full {
        let cells = (0..width * height).map(|i| (1 + (i % width + i / width) % colors) as u8).collect();
        Full { width, height, cells }
    }

    fn model(&self, puzzle: &[u32]) -> Vec<u8> {
        let palette: BTreeSet<_> = self.cells.iter().collect();
        let colors = self.cells.iter().flat_map(|cell| palette.iter().map(move |color| u8::from(*color == cell)));
        let positions = counts(puzzle).unwrap().variables as usize - self.cells.len() * palette.len();
        vec![1; positions].into_iter().chain(colors).collect()
    }

    fn first_clue(&self) -> Vec<u32> {
        read_line(&self.cells[..self.width]).unwrap().into_iter().flat_map(|(size, color)| [size, color]).collect()
    }

    /// A blank first cell implies again and again that the last one has colour 1.
    fn probe(&self, impacts: u32) -> Vec<u32> {
        let last = [self.width as u32 - 1, self.height as u32 - 1, 1];
        [1, 0, 0, 0, impacts].into_iter().chain(last.repeat(impacts as usize)).collect()
    }

    /// What every entry answers.
    fn answers(&self, impacts: u32) -> impl PartialEq + Debug + Send {
        let Full { width, height, cells } = self;
        let puzzle = read_grid(*width, *height, cells).unwrap();
        let (words, model, clue) = (clauses(&puzzle).unwrap(), self.model(&puzzle), self.first_clue());
        assert_eq!(&check_model(&puzzle, &model).unwrap(), cells);
        let powers = two_powers(puzzle[puzzle.len() - 1]).unwrap();
        (
            (counts(&puzzle), starts(*width, &clue), color_ranges(*width, &clue), from_two_powers(&powers), powers),
            (transpose(*width, *height, cells), blocking(&puzzle, &model), probes(&puzzle, &self.probe(impacts))),
            (dimacs(1_000_000, 10, &words), puzzle, words),
        )
    }
}

#[test]
fn at_the_same_time_as_alone() {
    let grids: Vec<Full> = (1..=8).map(|i| Full::new(i, 9 - i, i)).collect();
    let start = Barrier::new(grids.len());
    thread::scope(|scope| {
        for grid in &grids {
            let alone = grid.answers(3);
            let start = &start;
            scope.spawn(move || {
                start.wait();
                (0..50).for_each(|_| assert_eq!(grid.answers(3), alone));
            });
        }
    });
}

/// Every entry at its largest: lines of 64 blocks, 31 colours, a million probe words.
#[test]
fn on_little_stack() {
    let largest = || Full::new(64, 64, 31).answers(349_000);
    let thread = thread::Builder::new().stack_size(STACK).spawn(largest).unwrap();
    assert!(thread.join().unwrap() == largest());
}

/// Refused by the compiler if a result could not go from thread to thread.
#[test]
fn results_go_between_threads() {
    fn goes<T: Send + Sync + 'static>(_: T) {}
    goes(read_line(&[]));
    goes(starts(1, &[]));
    goes(color_ranges(1, &[]));
    goes(counts(&[]));
}
