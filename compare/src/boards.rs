//! Boards to compare: small ones, all of a kind, and random ones.

use crate::{
    puzzle::{Clue, Puzzle},
    random::Random,
    rust::{self, Claim, Probes},
};
use nonogrid::block::multicolor::ColoredBlock;

/// The end of the last block when all are packed to the front.
fn least_space(clue: &[(u32, u32)]) -> u64 {
    let gaps = clue.windows(2).filter(|pair| pair[0].1 == pair[1].1).count();
    clue.iter().map(|&(size, _)| u64::from(size)).sum::<u64>() + gaps as u64
}

/// All clues of the colours 1 to `colors` whose least space is at most `space`.
pub fn clues(space: u32, colors: u32) -> Vec<Clue> {
    let mut all: Vec<Clue> = vec![vec![]];
    let mut next = 0;
    while next < all.len() {
        let shorter = all[next].clone();
        next += 1;
        for block in (1..=space).flat_map(|size| (1..=colors).map(move |color| (size, color))) {
            let longer = [shorter.as_slice(), &[block]].concat();
            if least_space(&longer) <= space.into() {
                all.push(longer);
            }
        }
    }
    all
}

/// Calls with each way of choosing one of the things for each place.
pub fn each_choice<T: Clone>(places: &[&[T]], call: &mut impl FnMut(&[T])) {
    fn go<T: Clone>(places: &[&[T]], chosen: &mut Vec<T>, call: &mut impl FnMut(&[T])) {
        let Some((first, rest)) = places.split_first() else { return call(chosen) };
        for thing in *first {
            chosen.push(thing.clone());
            go(rest, chosen, call);
            chosen.pop();
        }
    }
    go(places, &mut vec![], call);
}

/// All puzzles of so many columns and rows over these clues and masks.
pub fn each_puzzle(width: usize, height: usize, column: &[Clue], row: &[Clue], masks: &[u32], call: &mut impl FnMut(Puzzle)) {
    let lines = [vec![column; width], vec![row; height]].concat();
    each_choice(&lines, &mut |clues| {
        each_choice(&vec![masks; width * height], &mut |masks| {
            let (columns, rows) = clues.split_at(width);
            call(Puzzle { columns: columns.to_vec(), rows: rows.to_vec(), masks: masks.to_vec() });
        });
    });
}

/// Widths and heights to pick from.
pub type Sizes = &'static [usize];
pub const TINY: Sizes = &[1, 2, 2, 3, 3, 4];
pub const SMALL: Sizes = &[1, 2, 2, 3, 3, 4, 5, 6, 7, 10, 12];
pub const ANY: Sizes = &[1, 2, 3, 5, 8, 13, 21, 34, 55, 63, 64];
pub const FULL: Sizes = &[64];

fn palette(random: &mut Random) -> Vec<u32> {
    let count = random.pick(&[1, 1, 2, 3, 5, 31]);
    let mut colors: Vec<u32> = (1..32).collect();
    while colors.len() > count {
        let at = random.below(colors.len());
        colors.remove(at);
    }
    if count == 1 && !random.one_in(3) {
        vec![1]
    } else {
        colors
    }
}

/// A width and a picture, in a few colours or all; many cells are as the one before.
pub fn picture(random: &mut Random, sizes: Sizes) -> (usize, Vec<u8>) {
    let (width, height) = (random.pick(sizes), random.pick(sizes));
    let colors = palette(random);
    let blank = random.pick(&[2, 3, 6, 50]);
    let mut cells: Vec<u8> = vec![];
    for _ in 0..width * height {
        let fresh = if random.one_in(blank) { 0 } else { random.pick(&colors) as u8 };
        cells.push(cells.last().copied().filter(|_| random.below(5) < 2).unwrap_or(fresh));
    }
    (width, cells)
}

/// A clue, most often one that fits the line, whatever the lines that cross it say.
pub fn clue(random: &mut Random, length: usize, colors: &[u32]) -> Clue {
    let over = u64::from(random.one_in(200));
    let mut clue = vec![];
    while clue.len() < 64 && !random.one_in(5) {
        let longest = random.pick(&[1, 2, length / 2 + 1]);
        clue.push((1 + random.below(longest) as u32, random.pick(colors)));
        if least_space(&clue) > length as u64 + over {
            clue.pop();
            break;
        }
    }
    clue
}

fn mask(random: &mut Random, colors: &[u32]) -> u32 {
    let all = colors.iter().fold(1, |mask, &color| mask | 1 << color);
    let one = 1 << random.pick(colors);
    let word = random.word() as u32;
    let odd = if random.one_in(1000) { 1 << random.below(32) } else { one };
    random.pick(&[1, odd, all, all, one | 1, one | word, all & word | one, u32::MAX])
}

/// Clues of their own for each line, or those of a picture; then masks of every kind.
pub fn puzzle(random: &mut Random, sizes: Sizes) -> Puzzle {
    let (width, grid) = picture(random, sizes);
    let (mut columns, mut rows) = rust::read_grid::<ColoredBlock>(width, &grid);
    if random.one_in(2) {
        let colors = palette(random);
        rows.iter_mut().for_each(|row| *row = clue(random, width, &colors));
        let known = if random.one_in(20) { colors } else { Puzzle { columns: vec![], rows: rows.clone(), masks: vec![] }.colors() };
        let height = rows.len();
        columns.iter_mut().for_each(|column| *column = clue(random, height, &known));
    }
    let mut puzzle = Puzzle { columns, rows, masks: vec![] };
    let colors = puzzle.colors();
    let binary = colors == [1] && !random.one_in(4);
    puzzle.masks = grid.iter().map(|_| if binary { random.pick(&[1, 2, 3, 3, 3]) } else { mask(random, &colors) }).collect();
    puzzle
}

/// The puzzle of a picture with masks that solve and exclude; now and then one that the picture breaks.
pub fn masked(random: &mut Random, puzzle: &Puzzle, grid: &[u8]) -> Puzzle {
    let known = [vec![0], puzzle.colors()].concat();
    let mut masks = vec![];
    for &cell in grid {
        let other = 1 << random.pick(&known);
        let obeyed = random.pick(&[puzzle.masks[0], 1 << cell, 1 << cell | other]);
        masks.push(if random.one_in(100) { other } else { obeyed });
    }
    Puzzle { masks, ..puzzle.clone() }
}

fn claim(random: &mut Random, puzzle: &Puzzle, colors: &[u32]) -> Claim {
    let off = usize::from(random.one_in(300));
    (random.below(puzzle.width() + off) as u32, random.below(puzzle.height() + off) as u32, random.pick(colors))
}

/// Probes at random; few are off the grid, and some have a colour that no row has.
pub fn probes(random: &mut Random, puzzle: &Puzzle) -> Probes {
    let known = [vec![0], puzzle.colors()].concat();
    let any: Vec<u32> = if known.len() == 2 && random.one_in(2) { known.clone() } else { (0..32).collect() };
    let of = if random.one_in(50) { any.clone() } else { known };
    let count = random.below(6);
    let impacts = |random: &mut Random| (0..random.below(5)).map(|_| claim(random, puzzle, &any)).collect();
    (0..count).map(|_| (claim(random, puzzle, &of), impacts(random))).collect()
}

/// The model of a picture whose clues the puzzle has: one byte a variable.
pub fn model(puzzle: &Puzzle, width: usize, grid: &[u8]) -> Vec<u8> {
    let columns: Vec<Vec<u8>> = (0..width).map(|x| grid.iter().skip(x).step_by(width).copied().collect()).collect();
    let rows: Vec<Vec<u8>> = grid.chunks(width).map(<[u8]>::to_vec).collect();
    let blocks = columns.iter().zip(&puzzle.columns).chain(rows.iter().zip(&puzzle.rows)).flat_map(|(line, clue)| placed(line, clue));
    let colors = puzzle.colors();
    let cells = grid.iter().flat_map(|&cell| colors.iter().map(move |&color| u8::from(u32::from(cell) == color)));
    blocks.chain(cells).collect()
}

/// A byte for each position of each block of a line: 1 where the line has the block.
fn placed(line: &[u8], clue: &[(u32, u32)]) -> Vec<u8> {
    let starts = rust::starts::<ColoredBlock>(line.len(), clue).expect("a clue that fits");
    let begins = (0..line.len()).filter(|&i| line[i] != 0 && (i == 0 || line[i - 1] != line[i]));
    let positions = starts[0] as usize;
    begins.zip(&starts[2..]).flat_map(|(begin, &start)| (0..positions).map(move |p| u8::from(start as usize + p == begin))).collect()
}

/// Words with some changed, dropped or added.
pub fn damaged(random: &mut Random, mut words: Vec<u32>) -> Vec<u32> {
    for _ in 0..random.pick(&[1, 1, 1, 2, 3]) {
        let at = random.below(words.len() + 1);
        let odd = random.pick(&[0, 1, 2, 3, 31, 32, 63, 64, 65, 1 << 31, u32::MAX]);
        match random.below(6) {
            0 => words.truncate(at),
            1 => words.insert(at, odd),
            _ if at == words.len() => words.push(odd),
            2 => drop(words.remove(at)),
            3 => words[at] = words[at].wrapping_add(1),
            4 => words[at] = words[at].wrapping_sub(1),
            _ => words[at] = odd,
        }
    }
    words
}
