//! The Rust of nonogrid 0.7.3, put behind numbers and words like the library's: colours 0 to 31, variables from 1, colours ascending.

use crate::puzzle::Puzzle;
use nonogrid::{
    block::{
        base::{clues_from_solution, color::ColorId},
        binary::{BinaryBlock, BinaryColor},
        multicolor::{ColoredBlock, Multicolor},
        Block, Description,
    },
    board::Point,
    solver::{probing::ProbeImpact, sat::ClauseGenerator},
};
use std::{
    cell::Cell,
    collections::HashMap,
    panic::{catch_unwind, resume_unwind, set_hook, take_hook, AssertUnwindSafe},
    rc::Rc,
};
use varisat::{solver, Lit};

pub type Clauses = Vec<Vec<i32>>;

thread_local! {
    static EXPECTED: Cell<bool> = const { Cell::new(false) };
}

/// What the Rust says where it panics, and the refusal that stands for it.
const PANICS: [(&str, u32); 4] = [
    ("assertion failed: line_length >= min_space", 6),
    ("Solved color should be present", 10),
    ("Cannot get vars for point", 17),
    ("Not found probe var", 19),
];

/// What the Rust answers, or the number of the refusal that stands for its panic. Any other panic goes on.
pub fn unless_panic<T>(call: impl FnOnce() -> T) -> Result<T, u32> {
    let before = EXPECTED.replace(true);
    let answer = catch_unwind(AssertUnwindSafe(call));
    EXPECTED.set(before);
    answer.map_err(|panic| {
        let said = panic.downcast_ref::<String>().map(String::as_str).or(panic.downcast_ref::<&str>().copied()).unwrap_or("");
        let Some((_, number)) = PANICS.iter().find(|(text, _)| *text == said) else {
            eprintln!("a panic that no refusal stands for: {said}");
            resume_unwind(panic)
        };
        *number
    })
}

/// Keeps quiet about the panics that are counted.
pub fn hide_panics() {
    let loud = take_hook();
    set_hook(Box::new(move |panic| {
        if !EXPECTED.get() {
            loud(panic)
        }
    }));
}

/// The Rust's two kinds of puzzles: how colours become ids, and masks cells.
pub trait Kind: Block + 'static {
    const NAME: &'static str;
    const BLANK: ColorId;
    fn id(color: u32) -> ColorId;
    fn cell(mask: u32) -> Self::Color;
    fn mask(cell: Self::Color) -> u32;

    fn block(size: u32, color: u32) -> Self {
        Self::from_size_and_color(size as usize, Some(Self::id(color)))
    }

    fn clue(blocks: &[(u32, u32)]) -> Description<Self> {
        Description::new(blocks.iter().map(|&(size, color)| Self::block(size, color)).collect())
    }
}

impl Kind for BinaryBlock {
    const NAME: &'static str = "binary";
    const BLANK: ColorId = 1;

    /// `BLACK_COLOR` of sat.rs.
    fn id(_color: u32) -> ColorId {
        0
    }

    fn cell(mask: u32) -> BinaryColor {
        BinaryColor(mask)
    }

    fn mask(cell: BinaryColor) -> u32 {
        cell.0
    }
}

impl Kind for ColoredBlock {
    const NAME: &'static str = "colour";
    const BLANK: ColorId = 1;

    fn id(color: u32) -> ColorId {
        1 << color
    }

    fn cell(mask: u32) -> Multicolor {
        Multicolor(mask)
    }

    fn mask(cell: Multicolor) -> u32 {
        cell.0
    }
}

/// A clue's positions, least space and starts.
pub fn starts<B: Kind>(length: usize, clue: &[(u32, u32)]) -> Result<Vec<u32>, u32> {
    let clue = B::clue(clue);
    let positions = unless_panic(|| clue.positions_number(length))?;
    Ok([positions, clue.door_min_space()].into_iter().chain(clue.block_starts()).map(|n| n as u32).collect())
}

/// A colour clue's ranges, for the colours 1 to 31.
pub fn color_ranges(length: usize, clue: &[(u32, u32)]) -> Result<Vec<u32>, u32> {
    let ranges = unless_panic(|| ColoredBlock::clue(clue).color_ranges(length))?;
    let range = |color| ranges.get(&ColoredBlock::id(color)).map_or([0, 0], |range| [range.start as u32, range.end as u32]);
    Ok((1..32).flat_map(range).collect())
}

fn ids<B: Kind>(line: &[u8]) -> Vec<ColorId> {
    line.iter().map(|&color| if color == 0 { B::BLANK } else { B::id(color.into()) }).collect()
}

/// Blocks as sizes and colours; of a binary block the colour is 1.
fn blocks<B: Kind>(clue: &Description<B>) -> Vec<(u32, u32)> {
    clue.vec.iter().map(|block| (block.size() as u32, B::mask(block.color()).trailing_zeros())).collect()
}

pub fn read_line<B: Kind>(line: &[u8]) -> Vec<(u32, u32)> {
    blocks(&Description::<B>::door_from_line(&ids::<B>(line), B::BLANK))
}

/// The clues of a grid's columns and rows.
pub fn read_grid<B: Kind>(width: usize, grid: &[u8]) -> (Vec<Vec<(u32, u32)>>, Vec<Vec<(u32, u32)>>) {
    let (columns, rows) = clues_from_solution::<B>(&grid.chunks(width).map(ids::<B>).collect::<Vec<_>>(), B::BLANK);
    (columns.iter().map(blocks).collect(), rows.iter().map(blocks).collect())
}

/// The puzzle of a grid: the clues are the Rust's, and the masks document 01's.
pub fn puzzle(width: usize, grid: &[u8]) -> Puzzle {
    let (columns, rows) = read_grid::<ColoredBlock>(width, grid);
    let mut puzzle = Puzzle { columns, rows, masks: vec![] };
    let mask = puzzle.colors().iter().fold(1, |mask, &color| mask | 1 << color);
    puzzle.masks = vec![mask; grid.len()];
    puzzle
}

/// The first line on which `positions_number` panics, columns first.
pub fn too_short<B: Kind>(puzzle: &Puzzle) -> Option<usize> {
    let columns = puzzle.columns.iter().map(|clue| (clue, puzzle.height()));
    let rows = puzzle.rows.iter().map(|clue| (clue, puzzle.width()));
    columns.chain(rows).position(|(clue, length)| starts::<B>(length, clue).is_err())
}

/// The first clause that a model makes false.
pub fn false_clause(clauses: &[Vec<i32>], model: &[u8]) -> Option<usize> {
    let holds = |&literal: &i32| (model[literal.unsigned_abs() as usize - 1] == 1) == (literal > 0);
    clauses.iter().position(|clause| !clause.iter().any(holds))
}

pub fn transpose(width: usize, grid: &[u8]) -> Vec<u8> {
    let rows: Vec<_> = grid.chunks(width).map(<[u8]>::to_vec).collect();
    nonogrid::utils::transpose(&rows).expect("rows of one length").concat()
}

fn generator<B: Kind>(puzzle: &Puzzle) -> ClauseGenerator<B> {
    let clues = |lines: &[Vec<(u32, u32)>]| lines.iter().map(|clue| Rc::new(B::clue(clue))).collect::<Vec<_>>();
    let cells = puzzle.masks.iter().map(|&mask| B::cell(mask)).collect();
    ClauseGenerator::with_clues(&clues(&puzzle.columns), &clues(&puzzle.rows), cells)
}

/// How many clauses the Rust makes of a puzzle.
pub fn clause_count<B: Kind>(puzzle: &Puzzle) -> Result<usize, u32> {
    unless_panic(|| generator::<B>(puzzle).door_clauses().count())
}

/// Whether the Rust panics at the mask of this cell and at none before.
pub fn stops_at<B: Kind>(puzzle: &Puzzle, cell: usize) -> bool {
    let panics = |open: usize| {
        let mut puzzle = puzzle.clone();
        puzzle.masks[open..].fill(u32::MAX);
        clause_count::<B>(&puzzle) == Err(10)
    };
    !panics(cell) && panics(cell + 1)
}

/// A claim of a probe list: column, row and colour.
pub type Claim = (u32, u32, u32);

/// Probes, each with its impacts.
pub type Probes = Vec<(Claim, Vec<Claim>)>;

/// Of binary puzzles, probes and impacts are compared only if they are blank or of colour 1.
pub fn in_domain<B: Kind>(probes: &Probes) -> bool {
    let mut claims = probes.iter().flat_map(|(probe, impacts)| impacts.iter().chain([probe]));
    B::NAME != BinaryBlock::NAME || claims.all(|&(_, _, color)| color <= 1)
}

/// The clause generator of a puzzle, with the number that document 01 gives each of its variables.
pub struct Encoder<'a, B: Kind> {
    puzzle: &'a Puzzle,
    generator: ClauseGenerator<B>,
    block_vars: usize,
    renamed: Vec<i32>,
}

impl<'a, B: Kind> Encoder<'a, B> {
    /// Panics where the Rust does.
    pub fn new(puzzle: &'a Puzzle) -> Self {
        let generator = generator::<B>(puzzle);
        let block_vars = generator.door_clues_vars_count();
        let mut this = Self { puzzle, generator, block_vars, renamed: (1..=block_vars as i32).collect() };
        this.rename_cells();
        this
    }

    /// A cell's variables must be those of the colours of the rows, and no others.
    fn rename_cells(&mut self) {
        let colors = self.puzzle.colors();
        let cells = self.puzzle.width() * self.puzzle.height();
        self.renamed.resize(self.block_vars + cells * colors.len(), 0);
        for cell in 0..cells {
            let point = Point::new(cell % self.puzzle.width(), cell / self.puzzle.width());
            let vars: &HashMap<_, _> = self.generator.door_vars(point);
            assert_eq!(vars.len(), colors.len(), "the colours of a cell");
            for (rank, &color) in colors.iter().enumerate() {
                self.renamed[vars[&B::id(color)].index()] = (self.block_vars + cell * colors.len() + rank + 1) as i32;
            }
        }
        assert!(!self.renamed.contains(&0), "a variable without a number");
    }

    pub fn variables(&self) -> usize {
        self.renamed.len()
    }

    fn literal(&self, literal: Lit) -> i32 {
        let variable = self.renamed[literal.var().index()];
        if literal.is_positive() {
            variable
        } else {
            -variable
        }
    }

    fn clause(&self, clause: &[Lit]) -> Vec<i32> {
        clause.iter().map(|&literal| self.literal(literal)).collect()
    }

    /// All clauses, in the Rust's order. Panics where the Rust does.
    pub fn clauses(&self) -> Clauses {
        self.generator.door_clauses().map(|clause| self.clause(&clause)).collect()
    }

    /// The ten families of these clauses, in document 01's order of colours.
    pub fn families(&self, clauses: &[Vec<i32>]) -> Vec<Clauses> {
        let mut rest = clauses.iter().cloned();
        let counts = self.generator.door_counts();
        let families = counts.iter().zip(1..).map(|(&count, family)| self.ascending(family, rest.by_ref().take(count).collect())).collect();
        assert_eq!(rest.count(), 0, "clauses of no family");
        families
    }

    /// A binary puzzle's clauses stay as they are; of others those of one cell and colour keep their order.
    fn ascending(&self, family: usize, mut clauses: Clauses) -> Clauses {
        if family < 7 || B::NAME == BinaryBlock::NAME {
            return clauses;
        }
        if family == 9 {
            clauses.iter_mut().for_each(|clause| clause.sort_by_key(|literal| literal.abs()));
        }
        let colors = self.puzzle.colors().len();
        clauses.sort_by_cached_key(|clause| self.place(family, colors, clause));
        clauses
    }

    /// Where a clause of the families 7 to 10 stands: its cell, column by column up to 9, then its first and its last cell variable.
    fn place(&self, family: usize, colors: usize, clause: &[i32]) -> (usize, usize, i32, i32) {
        let cell_variable = |&variable: &i32| variable as usize > self.block_vars;
        let mut variables = clause.iter().map(|literal| literal.abs()).filter(cell_variable);
        let first = variables.next().expect("a variable of a cell");
        let cell = (first as usize - 1 - self.block_vars) / colors;
        let (x, y) = (cell % self.puzzle.width(), cell / self.puzzle.width());
        let (outer, inner) = if family == 10 { (y, x) } else { (x, y) };
        (outer, inner, first, variables.last().unwrap_or(first))
    }

    fn claim((x, y, color): Claim) -> (Point, B::Color) {
        (Point::new(x as usize, y as usize), B::cell(1 << color))
    }

    /// The implications of one probe, in document 01's order of colours. Panics where the Rust does.
    pub fn implications(&self, probe: Claim, impacts: &[Claim]) -> Clauses {
        let (point, color) = Self::claim(probe);
        let one = |&impact: &Claim| self.generator.door_implications(point, color, vec![Self::claim(impact)]);
        let single: Vec<_> = impacts.iter().map(one).collect();
        let together = self.generator.door_implications(point, color, impacts.iter().map(|&impact| Self::claim(impact)).collect());
        assert_eq!(single.concat(), together, "impacts one by one");
        single.iter().flat_map(|clauses| self.implied(clauses)).collect()
    }

    /// The clauses of one impact: premises ascending, and conclusions ascending.
    fn implied(&self, clauses: &[Vec<Lit>]) -> Clauses {
        let mut out: Clauses = clauses.iter().map(|clause| self.clause(clause)).collect();
        for clause in &mut out {
            let premises = clause.len() - 1;
            clause[..premises].sort();
        }
        out.sort_by_key(|clause| clause.last().map(|literal| literal.abs()));
        out
    }

    /// Runs the Rust's search on models that are given: all clauses that its solver was told, with the blocking clauses last, and the
    /// pictures that it shows.
    pub fn run(&self, probes: &Probes, models: &[Vec<u8>]) -> (Clauses, Vec<Vec<u8>>) {
        let value = |model: &Vec<u8>| self.renamed.iter().map(|&variable| model[variable as usize - 1] == 1).collect();
        solver::begin(models.iter().map(value).collect());
        let impact = probes.iter().map(|(probe, impacts)| {
            let (point, color) = Self::claim(*probe);
            ProbeImpact { point, color, updated: impacts.iter().map(|&impact| Self::claim(impact)).collect() }
        });
        let pictures = self.generator.run(impact.collect(), Some(models.len()));
        let shown = |cells: Vec<B::Color>| cells.into_iter().map(|cell| B::mask(cell).trailing_zeros() as u8).collect();
        let pictures = pictures.map(shown).collect();
        (solver::told().iter().map(|clause| self.clause(clause)).collect(), pictures)
    }
}
