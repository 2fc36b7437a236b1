//! A sample of the Rust's answers, as cases for the program `vectors`: an entry, the room that it is lent, and its numbers; below them the number, the place
//! and the whole buffer, which was full of sevens.

use crate::{
    boards,
    puzzle::{clue_words, Puzzle},
    random::Random,
    rust::{self, unless_panic, Clauses, Encoder, Kind},
    topics::{count_words, probe_words, section_words},
};
use nonogrid::block::{binary::BinaryBlock, multicolor::ColoredBlock};

/// What is written, or a refusal's number and place.
type Answer = Result<Vec<i64>, (u32, usize)>;

fn wide<T: Copy + Into<i64>>(words: &[T]) -> Vec<i64> {
    words.iter().map(|&word| word.into()).collect()
}

/// Words as text, four and more of a kind as `N*M`.
fn shown(words: &[i64]) -> String {
    let run = |run: &[i64]| match run.len() {
        4.. => format!(" {}*{}", run[0], run.len()),
        few => format!(" {}", run[0]).repeat(few),
    };
    words.chunk_by(|a, b| a == b).map(run).collect()
}

/// One case; where the Rust accepts, with the room needed, with more, or with one word less.
fn case(random: &mut Random, entry: &str, args: &[i64], answer: Answer) {
    let needed = answer.as_ref().map_or(2, Vec::len);
    let room = random.pick(&[needed, needed, needed + 3, needed.saturating_sub(1)]);
    let (number, place, mut buffer) = match answer {
        Err((number, place)) => (number, place, vec![]),
        Ok(words) if words.len() > room => (12, words.len(), vec![]),
        Ok(words) => (0, words.len(), words),
    };
    buffer.resize(room, 7);
    println!("{entry} {room}{}\n {number} {place}:{}", shown(args), shown(&buffer));
}

fn powers(random: &mut Random) {
    let mask = random.word() as u32 & random.word() as u32;
    case(random, "two_powers", &[mask.into()], Ok(nonogrid::utils::two_powers(mask).map(i64::from).collect()));
    let words: Vec<u32> = (0..random.below(6)).map(|_| 1 << random.below(32)).collect();
    println!("from_two_powers 0{}\n {} 0:", shown(&wide(&words)), nonogrid::utils::from_two_powers(&words));
}

fn clues(random: &mut Random) {
    let length = random.pick(boards::ANY);
    let colors = [1 + random.below(31) as u32, 1 + random.below(31) as u32];
    let mut clue = boards::clue(random, length, &colors);
    if random.one_in(4) {
        clue.push((length as u32, colors[0]));
    }
    let args = [vec![length as i64], wide(&clue_words(&clue))].concat();
    let or_short = |words: Result<Vec<u32>, u32>| words.map(|words| wide(&words)).map_err(|number| (number, 0));
    case(random, "starts", &args, or_short(rust::starts::<ColoredBlock>(length, &clue)));
    case(random, "color_ranges", &args, or_short(rust::color_ranges(length, &clue)));
}

/// Of what `read_grid` writes, the masks are document 01's; the clues are the Rust's.
fn grids(random: &mut Random) {
    let (width, grid) = boards::picture(random, boards::TINY);
    case(random, "read_line", &wide(&grid[..width]), Ok(wide(&clue_words(&rust::read_line::<ColoredBlock>(&grid[..width])))));
    let args = [vec![width as i64, (grid.len() / width) as i64], wide(&grid)].concat();
    case(random, "read_grid", &args, Ok(wide(&rust::puzzle(width, &grid).words())));
    case(random, "transpose", &args, Ok(wide(&rust::transpose(width, &grid))));
}

/// A picture's model, checked as it is and with one byte changed.
fn models<B: Kind>(random: &mut Random, puzzle: &Puzzle, width: usize, grid: &[u8]) {
    let encoder = Encoder::<B>::new(puzzle);
    let clauses = encoder.families(&encoder.clauses()).concat();
    let model = boards::model(puzzle, width, grid);
    let mut changed = model.clone();
    changed[random.below(model.len())] ^= 1;
    for model in [model, changed] {
        let words = puzzle.words();
        let args = [vec![words.len() as i64], wide(&words), wide(&model)].concat();
        let answer = rust::false_clause(&clauses, &model).map_or_else(|| Ok(encoder.run(&vec![], &[model])), |place| Err((15, place)));
        let told = clauses.len();
        case(random, "check_model", &args, answer.as_ref().map(|(_, pictures)| wide(&pictures.concat())).map_err(|&refusal| refusal));
        case(random, "blocking", &args, answer.map(|(clauses, _)| wide(&section_words(&clauses[told..])[1..])));
    }
}

/// What the Rust answers of a puzzle's clauses. Its panics have no place: that of 6 is the line, that of 10 the cell at which it panics.
fn families<B: Kind>(puzzle: &Puzzle) -> Result<Vec<Clauses>, (u32, usize)> {
    if let Some(line) = rust::too_short::<B>(puzzle) {
        return Err((6, line));
    }
    if let Some(cell) = (0..puzzle.masks.len()).find(|&cell| rust::stops_at::<B>(puzzle, cell)) {
        return Err((10, cell));
    }
    let encoder = Encoder::<B>::new(puzzle);
    Ok(encoder.families(&encoder.clauses()))
}

/// The clauses of any puzzle, their counts, and those of probes.
fn clauses<B: Kind>(random: &mut Random, puzzle: &Puzzle) {
    let words = wide(&puzzle.words());
    let families = match families::<B>(puzzle) {
        Ok(families) => families,
        Err(refusal) => return case(random, "clauses", &words, Err(refusal)),
    };
    let encoder = Encoder::<B>::new(puzzle);
    let sections: Vec<i32> = families.iter().flat_map(|family| section_words(family)).collect();
    case(random, "clauses", &words, Ok(wide(&sections)));
    let counts = count_words(encoder.variables(), &families);
    case(random, "counts", &words, Ok(counts.iter().map(|&count| count as i64).collect()));
    let probes = boards::probes(random, puzzle);
    let implied = unless_panic(|| probes.iter().flat_map(|(probe, impacts)| encoder.implications(*probe, impacts)).collect::<Clauses>());
    if let Some(implied) = implied.ok().filter(|_| rust::in_domain::<B>(&probes)) {
        let args = [vec![words.len() as i64], words, wide(&probe_words(&probes))].concat();
        case(random, "probes", &args, Ok(wide(&section_words(&implied))));
    }
}

/// A small puzzle; now and then a block more, or a mask of one bit.
fn puzzle(random: &mut Random) -> Puzzle {
    let mut puzzle = boards::puzzle(random, boards::TINY);
    let more = (2, puzzle.colors()[0]);
    match random.below(8) {
        0 => puzzle.columns[0].push(more),
        1 => puzzle.rows[0].push(more),
        2 => *puzzle.masks.last_mut().expect("a cell") = 1 << random.below(32),
        _ => (),
    }
    puzzle
}

const HEAD: &str = "\
# The Rust's answers. From here to the end this is what `compare list` prints (compare/src/list.rs), made by the Rust of document 000 and not by the
# library or the model; compare/run tests that it is still the same. Variables count from 1 and colours are put in ascending order. The Rust has no
# buffers: the room, 12 and the sevens are added. Its panics are 6 and 10, at the line or cell where it panics. The masks of `read_grid` are document 01's.";

/// Prints the list of a seed.
pub fn print(seed: u64) {
    println!("{HEAD}");
    let mut random = Random::new(seed);
    for _ in 0..8 {
        powers(&mut random);
        clues(&mut random);
        grids(&mut random);
    }
    for _ in 0..12 {
        let (width, grid) = boards::picture(&mut random, boards::TINY);
        let puzzle = rust::puzzle(width, &grid);
        if puzzle.is_binary() {
            models::<BinaryBlock>(&mut random, &puzzle, width, &grid);
        } else {
            models::<ColoredBlock>(&mut random, &puzzle, width, &grid);
        }
    }
    for _ in 0..60 {
        let puzzle = puzzle(&mut random);
        if puzzle.column_outside().is_some() || puzzle.colors().len() > 3 {
            continue;
        }
        if puzzle.is_binary() {
            clauses::<BinaryBlock>(&mut random, &puzzle);
        } else if puzzle.is_colored() {
            clauses::<ColoredBlock>(&mut random, &puzzle);
        }
    }
}
