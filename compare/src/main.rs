//! The Rust of nonogrid 0.7.3 beside the library: `compare SEED ROUNDS` compares, and ends with status 1 where anything differs;
//! `compare list` prints the list that the program `vectors` replays.

mod boards;
mod intended;
mod list;
mod puzzle;
mod random;
mod rust;
mod tally;
mod topics;

use boards::Sizes;
use puzzle::Puzzle;
use random::Random;
use rust::Claim;
use std::{env, process::ExitCode};
use tally::Tally;
use topics::Case;

/// Every line, clue, grid and puzzle of small sizes.
fn exhaustive(tally: &mut Tally) {
    (0..1 << 16).for_each(|mask| topics::powers(tally, mask));
    for length in 1..=7 {
        for clue in boards::clues(length as u32 + 1, 3) {
            topics::clue(tally, length, &clue);
        }
        boards::each_choice(&vec![[0, 1, 2, 31].as_slice(); length], &mut |line| topics::line(tally, line));
    }
    for (width, height) in [(1, 1), (1, 2), (2, 1), (2, 2), (3, 2), (2, 3), (7, 1)] {
        boards::each_choice(&vec![[0, 1, 5].as_slice(); width * height], &mut |grid| {
            let puzzle = topics::grid(tally, width, grid);
            let models = vec![boards::model(&puzzle, width, grid)];
            Case { puzzle, probes: vec![], models }.compare(tally);
        });
    }
    let mut compare = |puzzle| Case::of(puzzle).compare(tally);
    let all: Vec<u32> = (1..16).collect();
    boards::each_puzzle(1, 1, &boards::clues(2, 3), &boards::clues(2, 3), &all, &mut compare);
    boards::each_puzzle(2, 1, &boards::clues(2, 2), &boards::clues(3, 2), &all[..7], &mut compare);
    boards::each_puzzle(1, 2, &boards::clues(3, 2), &boards::clues(2, 2), &all[..7], &mut compare);
    boards::each_puzzle(2, 2, &boards::clues(3, 1), &boards::clues(3, 1), &[1, 2, 3], &mut compare);
    boards::each_puzzle(2, 2, &boards::clues(2, 2), &boards::clues(2, 2), &[7], &mut compare);
    boards::each_puzzle(3, 2, &boards::clues(2, 1), &boards::clues(3, 1), &[2, 3], &mut compare);
    boards::each_puzzle(3, 3, &boards::clues(3, 1), &boards::clues(3, 1), &[3], &mut compare);
}

/// The largest boards, the longest and fullest lines, sizes beyond a word's sum.
fn limits(tally: &mut Tally) {
    let alternating: puzzle::Clue = (0..64).map(|i| (1, 1 + i % 2)).collect();
    let huge = vec![(u32::MAX, 1), (2, 1)];
    for clue in [
        vec![],
        vec![(1, 31)],
        vec![(63, 1)],
        vec![(64, 1)],
        vec![(65, 1)],
        vec![(1, 2), (62, 2)],
        vec![(1, 2), (63, 2)],
        alternating,
        huge,
    ] {
        topics::clue(tally, 64, &clue);
        for (width, height) in [(64, 1), (1, 64)] {
            let clues = |count, length| vec![if length == 64 { clue.clone() } else { vec![(1, 1)] }; count];
            let puzzle = Puzzle { columns: clues(width, height), rows: clues(height, width), masks: vec![u32::MAX; 64] };
            Case::of(puzzle).compare(tally);
        }
    }
    let colors: Vec<puzzle::Clue> = (0..64).map(|i| vec![(1 + i % 2, 1 + i % 31)]).collect();
    for lines in [vec![vec![]; 64], vec![vec![(1, 1)]; 64], vec![vec![(64, 31)]; 64], vec![vec![(1, 1); 32]; 64], colors] {
        for mask in [3, 1 << 31 | 2, u32::MAX] {
            Case::of(Puzzle { columns: lines.clone(), rows: lines.clone(), masks: vec![mask; 4096] }).compare(tally);
        }
    }
    let chequered: Vec<u8> = (0..4096).map(|i| 1 + ((i / 64 + i) % 2) as u8).collect();
    let puzzle = topics::grid(tally, 64, &chequered);
    let models = vec![boards::model(&puzzle, 64, &chequered)];
    Case { puzzle, probes: vec![], models }.compare(tally);
}

/// All claims of a board.
fn claims(puzzle: &Puzzle, colors: &[u32]) -> Vec<Claim> {
    let point = |cell: usize| ((cell % (puzzle.width() + 1)) as u32, (cell / (puzzle.width() + 1)) as u32);
    let cells = (puzzle.width() + 1) * (puzzle.height() + 1);
    (0..cells).map(point).flat_map(|(x, y)| colors.iter().map(move |&color| (x, y, color))).collect()
}

/// Every probe with every impact, points off the grid among them, on boards of one and of three colours.
fn every_probe(tally: &mut Tally) {
    for (grid, width, colors) in [(vec![1, 0], 2, vec![0, 1]), (vec![0], 1, vec![0, 1]), (vec![1, 3, 5, 0], 2, vec![0, 1, 2, 3, 5, 31])] {
        let puzzle = topics::grid(tally, width, &grid);
        let claims = claims(&puzzle, &colors);
        let alone = claims.iter().map(|&probe| vec![(probe, vec![])]);
        let pairs = claims.iter().flat_map(|&probe| claims.iter().map(move |&impact| vec![(probe, vec![impact])]));
        let probes = alone.chain(pairs).collect();
        Case { puzzle, probes, models: vec![] }.compare(tally);
    }
}

/// One random input of each kind, and damaged copies.
fn round(tally: &mut Tally, random: &mut Random, sizes: Sizes) {
    topics::powers(tally, random.word() as u32);
    let words: Vec<u32> = (0..random.below(40)).map(|_| random.word() as u32 & random.word() as u32).collect();
    topics::joined(tally, &words);

    let (width, grid) = boards::picture(random, sizes);
    topics::line(tally, &grid[..width]);
    let bytes: Vec<u8> = grid.iter().map(|_| random.word() as u8).collect();
    topics::transpose(tally, width, &bytes);
    let read = topics::grid(tally, width, &grid);
    let model = boards::model(&read, width, &grid);
    let mut flipped = model.clone();
    let at = random.below(model.len());
    flipped[at] ^= 1;
    let models = vec![model, flipped];
    let probes = vec![boards::probes(random, &read)];
    Case { puzzle: boards::masked(random, &read, &grid), probes: vec![], models: models.clone() }.compare(tally);
    Case { puzzle: read, probes, models }.compare(tally);

    let puzzle = boards::puzzle(random, sizes);
    for clue in &puzzle.columns {
        topics::clue(tally, puzzle.height(), clue);
    }
    let words = puzzle.words();
    let probes = (0..3).map(|_| boards::probes(random, &puzzle)).collect();
    Case { puzzle, probes, models: vec![] }.compare(tally);
    for _ in 0..4 {
        topics::words(tally, &boards::damaged(random, words.clone()));
    }
}

fn number(at: usize, otherwise: u64) -> u64 {
    env::args().nth(at).map_or(otherwise, |text| text.parse().expect("a number"))
}

fn main() -> ExitCode {
    rust::hide_panics();
    if env::args().nth(1).as_deref() == Some("list") {
        list::print(1);
        return ExitCode::SUCCESS;
    }
    let (seed, rounds) = (number(1, 1), number(2, 3000));
    let mut tally = Tally::default();
    intended::compare(&mut tally);
    exhaustive(&mut tally);
    every_probe(&mut tally);
    limits(&mut tally);
    let mut random = Random::new(seed);
    for i in 0..rounds {
        let sizes = match i {
            _ if i % 200 == 0 => boards::FULL,
            _ if i % 10 == 0 => boards::ANY,
            _ => boards::SMALL,
        };
        round(&mut tally, &mut random, sizes);
    }
    println!("seed {seed}, {rounds} rounds");
    if tally.summary() {
        ExitCode::SUCCESS
    } else {
        ExitCode::FAILURE
    }
}
