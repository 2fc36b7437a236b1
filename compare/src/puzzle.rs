//! A puzzle as the harness knows it, and its words.

use std::collections::BTreeSet;

pub type Clue = Vec<(u32, u32)>;

#[derive(Clone, Debug)]
pub struct Puzzle {
    pub columns: Vec<Clue>,
    pub rows: Vec<Clue>,
    pub masks: Vec<u32>,
}

pub fn clue_words(clue: &[(u32, u32)]) -> Vec<u32> {
    clue.iter().flat_map(|&(size, color)| [size, color]).collect()
}

fn line_words(lines: &[Clue]) -> Vec<u32> {
    let counted = lines.iter().flat_map(|clue| [vec![clue.len() as u32], clue_words(clue)].concat());
    std::iter::once(lines.len() as u32).chain(counted).collect()
}

fn take(words: &mut &[u32]) -> Option<u32> {
    let (&first, rest) = words.split_first()?;
    *words = rest;
    Some(first)
}

fn take_lines(words: &mut &[u32]) -> Option<Vec<Clue>> {
    let size = take(words).filter(|size| (1..=64).contains(size))?;
    (0..size).map(|_| take_clue(words)).collect()
}

fn take_clue(words: &mut &[u32]) -> Option<Clue> {
    let blocks = take(words).filter(|&blocks| blocks <= 64)?;
    (0..blocks).map(|_| Some((take(words).filter(|&size| size > 0)?, take(words).filter(|color| (1..=31).contains(color))?))).collect()
}

impl Puzzle {
    pub fn width(&self) -> usize {
        self.columns.len()
    }

    pub fn height(&self) -> usize {
        self.rows.len()
    }

    pub fn words(&self) -> Vec<u32> {
        [line_words(&self.columns), line_words(&self.rows), vec![self.masks.len() as u32], self.masks.clone()].concat()
    }

    /// What the words say, if they have the form of a puzzle's.
    pub fn parse(mut words: &[u32]) -> Option<Self> {
        let columns = take_lines(&mut words)?;
        let rows = take_lines(&mut words)?;
        let cells = take(&mut words)? as usize;
        let fine = cells == columns.len() * rows.len() && words.len() == cells && !words.contains(&0);
        fine.then(|| Self { columns, rows, masks: words.to_vec() })
    }

    /// The colours of the rows, ascending; colour 1 where there are none.
    pub fn colors(&self) -> Vec<u32> {
        let found: BTreeSet<u32> = self.rows.iter().flatten().map(|&(_, color)| color).collect();
        if found.is_empty() {
            vec![1]
        } else {
            found.into_iter().collect()
        }
    }

    /// Whether a cell is solved with a colour that no row has.
    pub fn solved_outside(&self) -> bool {
        let colors = self.colors();
        self.masks.iter().any(|mask| mask.is_power_of_two() && *mask > 1 && !colors.contains(&mask.trailing_zeros()))
    }

    /// The first column with a colour that no row has; 9 is stricter than the Rust.
    pub fn column_outside(&self) -> Option<usize> {
        let colors = self.colors();
        self.columns.iter().position(|column| column.iter().any(|(_, color)| !colors.contains(color)))
    }

    /// Binary puzzles of the comparison domain.
    pub fn is_binary(&self) -> bool {
        self.columns.iter().chain(&self.rows).flatten().all(|&(_, color)| color == 1) && self.masks.iter().all(|&mask| mask <= 3)
    }

    /// Colour puzzles of the comparison domain.
    pub fn is_colored(&self) -> bool {
        self.rows.iter().any(|row| !row.is_empty())
    }
}
