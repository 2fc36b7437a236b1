//! The comparisons: each takes an input and holds the library's answer against the Rust's.

use crate::{
    puzzle::{clue_words, Puzzle},
    rust::{self, unless_panic, Claim, Clauses, Encoder, Kind, Probes},
    tally::Tally,
};
use haafgrim::{lent, Refusal};
use nonogrid::block::{binary::BinaryBlock, multicolor::ColoredBlock};

/// The library's answer in a buffer of a length that is always enough.
fn within<T: Default + Clone>(room: usize, entry: impl Fn(&mut [T]) -> Result<usize, Refusal>) -> Result<Vec<T>, Refusal> {
    let mut out = vec![T::default(); room];
    entry(&mut out).map(|count| out[..count].to_vec())
}

/// An answer about a line, whose refusals stand for panics of the Rust.
fn answered(tally: &mut Tally, topic: &str, input: &[u32], ours: Result<Vec<u32>, Refusal>, rust: Result<Vec<u32>, u32>) {
    match (ours, rust) {
        (Ok(ours), Ok(rust)) => tally.equal(topic, input, &ours, &rust),
        (Err(Refusal { number, place: 0 }), Err(panic)) if number == panic => tally.count(&format!("{topic}: {number}, a panic"), 1),
        (ours, rust) => tally.differs(topic, input, &format!("{ours:?}, the Rust {rust:?}")),
    }
}

pub fn powers(tally: &mut Tally, mask: u32) {
    let rust: Vec<u32> = nonogrid::utils::two_powers(mask).collect();
    let ours = within(32, |out| lent::two_powers(mask, out)).expect("32 words are enough");
    tally.equal("two_powers", &[mask], &ours, &rust);
}

pub fn joined(tally: &mut Tally, words: &[u32]) {
    tally.equal("from_two_powers", words, &[lent::from_two_powers(words)], &[nonogrid::utils::from_two_powers(words)]);
}

/// A clue on a line, as a colour clue and, if it can be, as a binary one.
pub fn clue(tally: &mut Tally, length: usize, clue: &[(u32, u32)]) {
    let words = clue_words(clue);
    let input = [&[length as u32], words.as_slice()].concat();
    let starts = || within(66, |out| lent::starts(length, &words, out));
    answered(tally, "starts, colour", &input, starts(), rust::starts::<ColoredBlock>(length, clue));
    if clue.iter().all(|&(_, color)| color == 1) {
        answered(tally, "starts, binary", &input, starts(), rust::starts::<BinaryBlock>(length, clue));
    }
    let ranges = within(62, |out| lent::color_ranges(length, &words, out));
    answered(tally, "color_ranges, colour", &input, ranges, rust::color_ranges(length, clue));
}

pub fn line(tally: &mut Tally, line: &[u8]) {
    let input: Vec<u32> = line.iter().map(|&color| color.into()).collect();
    let ours = within(128, |out| lent::read_line(line, out)).expect("a line of colours");
    tally.equal("read_line, colour", &input, &ours, &clue_words(&rust::read_line::<ColoredBlock>(line)));
    if line.iter().all(|&color| color <= 1) {
        tally.equal("read_line, binary", &input, &ours, &clue_words(&rust::read_line::<BinaryBlock>(line)));
    }
}

/// The clues of a grid, and the puzzle that is read from it. The masks are document 01's.
pub fn grid(tally: &mut Tally, width: usize, grid: &[u8]) -> Puzzle {
    let input: Vec<u32> = [width as u32].into_iter().chain(grid.iter().map(|&color| color.into())).collect();
    let height = grid.len() / width;
    let puzzle = rust::puzzle(width, grid);
    let ours = haafgrim::read_grid(width, height, grid).expect("a grid of colours");
    tally.equal("read_grid, colour", &input, &ours, &puzzle.words());
    if grid.iter().all(|&color| color <= 1) {
        let (columns, rows) = rust::read_grid::<BinaryBlock>(width, grid);
        tally.equal("read_grid, binary", &input, &ours, &Puzzle { columns, rows, ..puzzle.clone() }.words());
    }
    puzzle
}

/// A grid of any bytes.
pub fn transpose(tally: &mut Tally, width: usize, grid: &[u8]) {
    let input: Vec<u32> = [width as u32].into_iter().chain(grid.iter().map(|&byte| byte.into())).collect();
    let ours = haafgrim::transpose(width, grid.len() / width, grid).expect("a grid");
    tally.equal("transpose", &input, &ours, &rust::transpose(width, grid));
}

/// A puzzle to compare, with probe lists, and models that satisfy it or nearly do.
pub struct Case {
    pub puzzle: Puzzle,
    pub probes: Vec<Probes>,
    pub models: Vec<Vec<u8>>,
}

impl Case {
    pub fn of(puzzle: Puzzle) -> Self {
        Self { puzzle, probes: vec![], models: vec![] }
    }

    pub fn compare(&self, tally: &mut Tally) {
        if self.puzzle.is_binary() {
            self.compare_as::<BinaryBlock>(tally);
        }
        if self.puzzle.is_colored() {
            self.compare_as::<ColoredBlock>(tally);
        }
        if !self.puzzle.is_binary() && !self.puzzle.is_colored() {
            tally.count("outside the domain: puzzles, not compared", 0);
        }
    }

    fn compare_as<B: Kind>(&self, tally: &mut Tally) {
        let words = self.puzzle.words();
        let rust = unless_panic(|| {
            let encoder = Encoder::<B>::new(&self.puzzle);
            let clauses = encoder.clauses();
            (encoder, clauses)
        });
        match (haafgrim::clauses(&words), rust) {
            (Ok(_), Ok(_)) if self.puzzle.column_outside().is_some() => tally.differs("clauses", &words, "accepted for 9"),
            (Ok(ours), Ok((encoder, clauses))) => {
                let formula = Formula::compared(tally, &words, &ours, encoder, clauses);
                self.probes.iter().for_each(|probes| formula.probes(tally, probes));
                self.models.iter().for_each(|model| formula.model(tally, model));
            }
            (Err(refusal), rust) => self.refused::<B>(tally, &words, refusal, rust.err()),
            (ours, Err(panic)) => tally.differs("clauses", &words, &format!("{ours:?}, the Rust panics for {panic}")),
        }
    }

    /// 01's order. 6 and 10 stand for panics, at the line and the cell where the Rust has them; 9 is stricter than the Rust, which panics only where a 10 would come too.
    fn refused<B: Kind>(&self, tally: &mut Tally, words: &[u32], refusal: Refusal, panic: Option<u32>) {
        let topic = format!("clauses, {}: {}", B::NAME, refusal.number);
        let is = |number, place| refusal == Refusal { number, place };
        let fine = match (rust::too_short::<B>(&self.puzzle), self.puzzle.column_outside()) {
            (Some(line), _) => is(6, line) && panic == Some(6),
            (None, Some(column)) => is(9, column) && panic == self.puzzle.solved_outside().then_some(10),
            (None, None) => is(10, refusal.place) && panic == Some(10) && rust::stops_at::<B>(&self.puzzle, refusal.place),
        };
        tally.count(&topic, 1);
        if !fine {
            tally.differs(&topic, words, &format!("{refusal}, the Rust's panic {panic:?}"));
        }
    }
}

/// The ten sections of the library's clause words.
fn sections(words: &[i32]) -> Vec<Clauses> {
    let mut words = words.iter().copied();
    let mut section = || {
        let clauses = words.next().expect("a count of clauses");
        (0..clauses).map(|_| words.next().map(|literals| words.by_ref().take(literals as usize).collect()).expect("a clause")).collect()
    };
    (0..10).map(|_| section()).collect()
}

/// What the library counts of these families: variables, clauses, literals and words.
pub fn count_words(variables: usize, families: &[Clauses]) -> Vec<u64> {
    let literals: usize = families.iter().flatten().map(Vec::len).sum();
    let clauses: usize = families.iter().map(Vec::len).sum();
    let sizes = families.iter().map(Vec::len);
    [variables].into_iter().chain(sizes).chain([literals, 10 + clauses + literals]).map(|n| n as u64).collect()
}

/// The Rust's clauses of a puzzle that both accept, in document 01's order of colours.
struct Formula<'a, B: Kind> {
    words: &'a [u32],
    encoder: Encoder<'a, B>,
    told: Clauses,
    clauses: Clauses,
}

impl<'a, B: Kind> Formula<'a, B> {
    /// Holds the families against each other one by one.
    fn compared(tally: &mut Tally, words: &'a [u32], ours: &[i32], encoder: Encoder<'a, B>, told: Clauses) -> Self {
        let families = encoder.families(&told);
        for (family, (ours, rust)) in (1..).zip(sections(ours).iter().zip(&families)) {
            tally.equal(&format!("family {family:2}, {}", B::NAME), words, ours, rust);
        }
        tally.equal("clause words", words, ours, &families.iter().flat_map(|family| section_words(family)).collect::<Vec<_>>());
        let formula = Self { words, encoder, told, clauses: families.concat() };
        formula.counts(tally, &families);
        formula
    }

    /// What the library counts, and the length that it needs.
    fn counts(&self, tally: &mut Tally, families: &[Clauses]) {
        let rust = count_words(self.encoder.variables(), families);
        let needed = rust[12] as usize;
        let ours = within(13, |out| lent::counts(self.words, out)).expect("an accepted puzzle");
        tally.equal("counts", self.words, &ours, &rust);
        let short = lent::clauses(self.words, &mut vec![0; needed - 1]);
        tally.equal("clauses: 12", self.words, &[short], &[Err(Refusal { number: 12, place: needed })]);
    }

    /// 17 and 19 stand for panics.
    fn probes(&self, tally: &mut Tally, probes: &Probes) {
        if !rust::in_domain::<B>(probes) {
            return tally.count("outside the domain: probes, not compared", 0);
        }
        let probe_words = probe_words(probes);
        let input = [self.words, probe_words.as_slice()].concat();
        let all = || probes.iter().flat_map(|(probe, impacts)| self.encoder.implications(*probe, impacts)).collect::<Clauses>();
        let topic = format!("probes, {}", B::NAME);
        match (haafgrim::probes(self.words, &probe_words), unless_panic(all)) {
            (Ok(ours), Ok(rust)) => {
                tally.equal(&topic, &input, &ours, &section_words(&rust));
                let (told, _) = self.encoder.run(probes, &[]);
                tally.equal("harness: run with probes, clauses told", &input, &[told.len()], &[self.told.len() + rust.len()]);
            }
            (Err(Refusal { number, .. }), Err(panic)) if number == panic => tally.count(&format!("{topic}: {number}, a panic"), 1),
            (ours, rust) => tally.differs(&topic, &input, &format!("{ours:?}, the Rust {rust:?}")),
        }
    }

    /// A model is accepted exactly when no clause of the Rust's is false, and then its picture and its blocking clause are those of `run`.
    fn model(&self, tally: &mut Tally, model: &[u8]) {
        let input: Vec<u32> = self.words.iter().copied().chain(model.iter().map(|&byte| byte.into())).collect();
        let picture = haafgrim::check_model(self.words, model);
        let blocking = haafgrim::blocking(self.words, model);
        if let Some(place) = rust::false_clause(&self.clauses, model) {
            let refusal = Refusal { number: 15, place };
            tally.equal(&format!("models, {}: 15", B::NAME), &input, &[picture.err(), blocking.err()], &[Some(refusal), Some(refusal)]);
            return;
        }
        let (told, pictures) = self.encoder.run(&vec![], &[model.to_vec()]);
        let (formula, blocked) = told.split_at(self.told.len());
        tally.equal("harness: run, clauses told", &input, formula, &self.told);
        tally.equal(&format!("pictures, {}", B::NAME), &input, &picture.unwrap_or_default(), &pictures.concat());
        tally.equal(&format!("blocking, {}", B::NAME), &input, &blocking.unwrap_or_default(), &section_words(blocked)[1..]);
    }
}

/// Clauses as one section.
pub fn section_words(clauses: &[Vec<i32>]) -> Vec<i32> {
    let counted = clauses.iter().flat_map(|clause| [vec![clause.len() as i32], clause.clone()].concat());
    std::iter::once(clauses.len() as i32).chain(counted).collect()
}

pub fn probe_words(probes: &Probes) -> Vec<u32> {
    let claim = |&(x, y, color): &Claim| [x, y, color];
    let one = |(probe, impacts): &(Claim, Vec<Claim>)| {
        [claim(probe).to_vec(), vec![impacts.len() as u32], impacts.iter().flat_map(claim).collect()].concat()
    };
    std::iter::once(probes.len() as u32).chain(probes.iter().flat_map(one)).collect()
}

/// Words that may be damaged: what has not the form of a puzzle is refused by its form, and the rest is compared.
pub fn words(tally: &mut Tally, words: &[u32]) {
    match (Puzzle::parse(words), haafgrim::clauses(words)) {
        (Some(puzzle), _) => Case::of(puzzle).compare(tally),
        (None, Err(Refusal { number: 1..=5 | 7 | 8 | 11, .. })) => tally.count("damaged words refused, no Rust to compare", 1),
        (None, ours) => tally.differs("damaged words", words, &format!("{:?}", ours.map(|out| out.len()))),
    }
}
