//! The Rust of nonogrid 0.7.3 on the same boards. It has neither a checker nor a DIMACS writer: what stands in for them is said at each.

use crate::boards::Board;
use nonogrid::{
    block::{
        base::clues_from_solution,
        binary::{BinaryBlock, BinaryColor},
        multicolor::{ColoredBlock, Multicolor},
        Block, Description,
    },
    board::Point,
    solver::sat::ClauseGenerator,
};
use std::{io::Write, rc::Rc};
use varisat::{CnfFormula, Lit};

/// A board as the Rust takes it: colour k is id 2^k, and a board of one colour is black and white.
pub trait Puzzle {
    fn formula(&self) -> CnfFormula;
    /// For the variables of that formula, in the order of its own, the values of a model of the board.
    fn named(&self, model: &[u8]) -> (CnfFormula, Vec<bool>);
    /// How many blocks there are.
    fn read_grid(&self) -> usize;
}

struct Clues<B: Block> {
    matrix: Vec<Vec<u32>>,
    columns: Vec<Rc<Description<B>>>,
    rows: Vec<Rc<Description<B>>>,
    cells: Vec<B::Color>,
}

pub fn puzzle(board: &Board) -> Box<dyn Puzzle> {
    let all = board.colors().iter().fold(1, |all, color| all | 1 << color);
    if board.asked == 1 {
        Box::new(Clues::<BinaryBlock>::new(board, BinaryColor(all)))
    } else {
        Box::new(Clues::<ColoredBlock>::new(board, Multicolor(all)))
    }
}

const BLANK: u32 = 1;

impl<B: Block> Clues<B> {
    fn new(board: &Board, cell: B::Color) -> Self {
        let matrix: Vec<Vec<u32>> = board.grid.chunks(board.size).map(|row| row.iter().map(|&color| 1 << color).collect()).collect();
        let (columns, rows) = clues_from_solution(&matrix, BLANK);
        let shared = |lines: Vec<_>| lines.into_iter().map(Rc::new).collect();
        Self { matrix, columns: shared(columns), rows: shared(rows), cells: vec![cell; board.grid.len()] }
    }

    fn generator(&self) -> ClauseGenerator<B> {
        ClauseGenerator::with_clues(&self.columns, &self.rows, self.cells.clone())
    }
}

impl<B: Block> Puzzle for Clues<B> {
    fn formula(&self) -> CnfFormula {
        self.generator().door_formula()
    }

    fn named(&self, model: &[u8]) -> (CnfFormula, Vec<bool>) {
        let generator = self.generator();
        let mut values: Vec<bool> = model.iter().map(|&byte| byte == 1).collect();
        for (y, row) in self.matrix.iter().enumerate() {
            for (x, cell) in row.iter().enumerate() {
                for (color, var) in generator.door_vars(Point::new(x, y)) {
                    // A black cell's colour has no id of its own; the Rust calls it 0.
                    values[var.index()] = cell == color || *color == 0 && *cell != BLANK;
                }
            }
        }
        (generator.door_formula(), values)
    }

    fn read_grid(&self) -> usize {
        let (columns, rows) = clues_from_solution::<B>(&self.matrix, BLANK);
        columns.iter().chain(&rows).map(|line| line.vec.len()).sum()
    }
}

/// In place of a checker: tests each clause of a formula up to its first true literal.
pub fn holds(formula: &CnfFormula, values: &[bool]) -> bool {
    formula.iter().all(|clause| clause.iter().any(|literal| values[literal.var().index()] == literal.is_positive()))
}

/// In place of a DIMACS writer: a formula written with `write!`.
pub fn dimacs(formula: &CnfFormula, out: &mut Vec<u8>) -> std::io::Result<()> {
    writeln!(out, "p cnf {} {}", formula.var_count(), formula.len())?;
    for clause in formula.iter() {
        for literal in clause {
            write!(out, "{} ", number(literal))?;
        }
        writeln!(out, "0")?;
    }
    Ok(())
}

fn number(literal: &Lit) -> i32 {
    let v = literal.var().index() as i32 + 1;
    if literal.is_positive() {
        v
    } else {
        -v
    }
}
