//! Times four entries of the library beside (a) the Rust of nonogrid 0.7.3, (b) plain Rust by the same walk, (c) copying the bytes that come out.
//! All in one run and in turn. Outputs are held against each other first.

mod boards;
mod plain;
mod rust;

use boards::Board;
use haafgrim::{lent, Refusal};
use std::{
    hint::black_box,
    time::{Duration, Instant},
};

type Answer = Result<usize, Refusal>;
type Dimacs = fn(usize, usize, &[i32], &mut [u8]) -> Answer;

const SIZES: [usize; 3] = [5, 25, 64];
const COLORS: [usize; 3] = [1, 4, 31];
/// A batch of calls lasts that long at least; the batches of one comparison go on for that long, and for that many rounds.
const BATCH: Duration = Duration::from_millis(1);
const ALL: Duration = Duration::from_secs(1);
const ROUNDS: usize = 15;

/// One way to do a thing, and the least time that a call has taken so far.
struct Way<'a> {
    call: Box<dyn FnMut() + 'a>,
    calls: u32,
    least: f64,
}

impl<'a> Way<'a> {
    /// Takes as many calls to a batch as fill the time of one.
    fn new<T>(mut call: impl FnMut() -> T + 'a) -> Self {
        let call = Box::new(move || drop(black_box(call())));
        let mut way = Self { call, calls: 1, least: f64::MAX };
        while way.batch() < BATCH {
            way.calls *= 2;
        }
        way
    }

    fn batch(&mut self) -> Duration {
        let begin = Instant::now();
        (0..self.calls).for_each(|_| (self.call)());
        let time = begin.elapsed();
        self.least = self.least.min(time.as_nanos() as f64 / f64::from(self.calls));
        time
    }
}

/// The times of the library, a, b and c, in nanoseconds.
fn measure(mut ways: [Way; 4]) -> [f64; 4] {
    let begin = Instant::now();
    let mut rounds = 0;
    while rounds < ROUNDS || begin.elapsed() < ALL {
        for way in &mut ways {
            way.batch();
        }
        rounds += 1;
    }
    ways.map(|way| way.least)
}

/// Copies that many elements.
fn copying<T: Copy + Default>(n: usize) -> impl FnMut() {
    let from = vec![T::default(); n];
    let mut to = vec![T::default(); n];
    move || black_box(&mut to[..]).copy_from_slice(black_box(&from))
}

/// Both give the same answer and leave the same in their buffers, whatever that is.
fn agree<T: PartialEq>(outs: &mut [Vec<T>; 2], library: impl Fn(&mut [T]) -> Answer, plain: impl Fn(&mut [T]) -> Answer) -> Answer {
    let [ours, other] = outs;
    let answer = library(ours);
    assert_eq!(answer, plain(other));
    assert!(ours == other, "other words or bytes");
    answer
}

/// What an entry writes, in a buffer of just that length; plain Rust writes the same.
fn room<T: Copy + Default + PartialEq>(library: impl Fn(&mut [T]) -> Answer, plain: impl Fn(&mut [T]) -> Answer) -> Vec<T> {
    let Err(Refusal { number: 12, place: needed }) = agree(&mut [vec![], vec![]], &library, &plain) else {
        panic!("no refusal for want of room");
    };
    let mut outs = [vec![T::default(); needed], vec![T::default(); needed]];
    assert_eq!(agree(&mut outs, library, plain), Ok(needed));
    let [out, _] = outs;
    out
}

/// What was compared, the times, and the library's time for one of so many units.
struct Row {
    entry: &'static str,
    times: [f64; 4],
    unit: &'static str,
    units: usize,
}

impl Row {
    /// a/lib, lib/b, lib/c.
    fn ratios(&self) -> [f64; 3] {
        let [library, a, b, c] = self.times;
        [a / library, library / b, library / c]
    }

    fn print(&self, board: &str) {
        let time = |ns: f64| if ns < 1e5 { format!("{:.2} us", ns / 1e3) } else { format!("{:.2} ms", ns / 1e6) };
        let [library, a, b, c] = self.times.map(time);
        let one = self.times[0] / self.units as f64;
        let [to_a, to_b, to_c] = self.ratios();
        print!("| {board} | {:<11} | {library:>9} | {one:>5.2} ns/{:<6} ", self.entry, self.unit);
        println!("| {a:>9} | {b:>9} | {c:>9} | {to_a:>5.1} | {to_b:>5.2} | {to_c:>8.1} |");
    }
}

fn compare(board: &Board) -> [Row; 5] {
    let size = board.size;
    let grid = &board.grid[..];
    let model = &board.model()[..];
    let theirs = rust::puzzle(board);

    let puzzle = room(|out| lent::read_grid(size, size, grid, out), |out| plain::read_grid(size, size, grid, out));
    let words = room(|out| lent::clauses(&puzzle, out), |out| plain::clauses(&puzzle, out));
    let text = room(|out| lent::dimacs(model.len(), 10, &words, out), |out| plain::dimacs(model.len(), 10, &words, out));
    assert_eq!(text, room(|out| lent::dimacs(model.len(), 10, &words, out), |out| plain::dimacs_by_loop(model.len(), 10, &words, out)));
    let shown = room(|out| lent::check_model(&puzzle, model, out), |out| plain::check_model(&puzzle, model, out));
    assert_eq!(shown, grid);
    same_refusals(size, grid, &puzzle, &words, model, &text);

    let mut counts = [0; 13];
    lent::counts(&puzzle, &mut counts).expect("an accepted puzzle");
    let clauses = counts[1..11].iter().sum::<u64>() as usize;
    let (formula, values) = theirs.named(model);
    assert_eq!((formula.len(), formula.var_count()), (clauses, model.len()));
    assert_eq!(formula.iter().map(<[_]>::len).sum::<usize>(), counts[11] as usize);
    assert!(rust::holds(&formula, &values));
    let mut their_text = Vec::new();
    rust::dimacs(&formula, &mut their_text).expect("memory");
    assert_eq!(their_text.split(|&byte| byte == b'\n').count(), clauses + 2);

    let (mut out, mut other) = (words.clone(), words.clone());
    let times = measure([
        Way::new(|| lent::clauses(black_box(&puzzle), black_box(&mut out))),
        Way::new(|| theirs.formula()),
        Way::new(|| plain::clauses(black_box(&puzzle), black_box(&mut other))),
        Way::new(copying::<i32>(words.len())),
    ]);
    let made = Row { entry: "clauses", times, unit: "clause", units: clauses };

    let (mut out, mut other) = (shown.clone(), shown.clone());
    let times = measure([
        Way::new(|| lent::check_model(black_box(&puzzle), black_box(model), black_box(&mut out))),
        // Each formula of theirs has its own order of colours, so the one that is tested is the one whose names are known.
        Way::new(|| {
            drop(black_box(theirs.formula()));
            assert!(rust::holds(black_box(&formula), black_box(&values)));
        }),
        Way::new(|| plain::check_model(black_box(&puzzle), black_box(model), black_box(&mut other))),
        Way::new(copying::<u8>(shown.len())),
    ]);
    let checked = Row { entry: "check_model", times, unit: "clause", units: clauses };

    // Beside plain Rust whose number writer calls itself too, and beside a loop of digits, which shows what that costs.
    let [written, looped] = [("dimacs", plain::dimacs as Dimacs), ("dimacs loop", plain::dimacs_by_loop)].map(|(entry, plain)| {
        let (mut out, mut other) = (text.clone(), text.clone());
        let times = measure([
            Way::new(|| lent::dimacs(model.len(), 10, black_box(&words), black_box(&mut out))),
            Way::new(|| {
                their_text.clear();
                rust::dimacs(black_box(&formula), black_box(&mut their_text))
            }),
            Way::new(|| plain(model.len(), 10, black_box(&words), black_box(&mut other))),
            Way::new(copying::<u8>(text.len())),
        ]);
        Row { entry, times, unit: "byte", units: text.len() }
    });

    let (mut out, mut other) = (puzzle.clone(), puzzle.clone());
    let times = measure([
        Way::new(|| lent::read_grid(size, size, black_box(grid), black_box(&mut out))),
        Way::new(|| theirs.read_grid()),
        Way::new(|| plain::read_grid(size, size, black_box(grid), black_box(&mut other))),
        Way::new(copying::<u32>(puzzle.len())),
    ]);
    let read = Row { entry: "read_grid", times, unit: "cell", units: grid.len() };

    let rows = [made, checked, written, looped, read];
    let sizes = format!("{size:>2}x{size:<2} | {:>2} | {clauses:>7} | {:>8}", board.colors().len(), words.len());
    rows.iter().for_each(|row| row.print(&sizes));
    rows
}

/// On a small board, each word or byte made some others, and the input cut there: plain Rust does as the library does.
fn same_refusals(size: usize, grid: &[u8], puzzle: &[u32], words: &[i32], model: &[u8], text: &[u8]) {
    if size > 5 {
        return;
    }
    let mut outs = [vec![0; words.len()], vec![0; words.len()]];
    changed(puzzle, [0, 1, 2, 3, 32, 65, u32::MAX], |puzzle| {
        let _ = agree(&mut outs, |out| lent::clauses(puzzle, out), |out| plain::clauses(puzzle, out));
    });
    let mut outs = [vec![0; grid.len()], vec![0; grid.len()]];
    changed(model, [0, 1, 2], |model| {
        let _ = agree(&mut outs, |out| lent::check_model(puzzle, model, out), |out| plain::check_model(puzzle, model, out));
    });
    let mut outs = [vec![0; text.len()], vec![0; text.len()]];
    changed(words, [0, 1, -1, 3, i32::MIN, i32::MAX], |words| {
        let _ = agree(&mut outs, |out| lent::dimacs(model.len(), 10, words, out), |out| plain::dimacs(model.len(), 10, words, out));
    });
    let mut outs = [vec![0; puzzle.len()], vec![0; puzzle.len()]];
    changed(grid, [0, 1, 31, 32], |grid| {
        let _ = agree(&mut outs, |out| lent::read_grid(size, size, grid, out), |out| plain::read_grid(size, size, grid, out));
    });
}

/// Hands over the input with each element made each value, and cut in front of it.
fn changed<T: Copy, const N: usize>(input: &[T], values: [T; N], mut test: impl FnMut(&[T])) {
    let mut other = input.to_vec();
    for i in 0..input.len() {
        test(&input[..i]);
        for value in values {
            other[i] = value;
            test(&other);
        }
        other[i] = input[i];
    }
}

fn main() {
    println!("| board | colours | clauses | words | entry | library | library, one | a | b | c | a/lib | lib/b | lib/c |");
    println!("|---|--:|--:|--:|---|--:|--:|--:|--:|--:|--:|--:|--:|");
    let boards = SIZES.into_iter().flat_map(|size| COLORS.map(|colors| Board::paint(size, colors)));
    let rows: Vec<Row> = boards.flat_map(|board| compare(&board)).collect();
    println!();
    let goals = [
        ("clauses", " (goal 5)", " (goal 1.2)"),
        ("check_model", " (goal 5)", " (goal 1.2)"),
        ("dimacs", "", " (goal 1.2)"),
        ("dimacs loop", "", ""),
        ("read_grid", " (goal 5)", " (goal 1.2)"),
    ];
    for (entry, to_rust, to_plain) in goals {
        let ratios = || rows.iter().filter(|row| row.entry == entry).map(Row::ratios);
        let least = ratios().map(|[to_a, ..]| to_a).fold(f64::MAX, f64::min);
        let most = ratios().map(|[_, to_b, _]| to_b).fold(0.0, f64::max);
        println!("{entry:<11} a/lib is {least:.1} at least{to_rust}, lib/b {most:.2} at most{to_plain}");
    }
}
