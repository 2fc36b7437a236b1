//! The same bytes by the same walk, as one writes them by hand: safe Rust, with nothing proved and nothing tuned.

use haafgrim::Refusal;
use std::ops::Range;

type Answer = Result<usize, Refusal>;

fn refuse<T>(number: u32, place: usize) -> Result<T, Refusal> {
    Err(Refusal { number, place })
}

// Reading a puzzle.

struct Block {
    size: usize,
    color: u32,
    start: usize,
    first: i32,
}

struct Line {
    blocks: Range<usize>,
    positions: usize,
}

struct Puzzle<'a> {
    width: usize,
    height: usize,
    blocks: Vec<Block>,
    lines: Vec<Line>,
    colors: u32,
    palette: Vec<u32>,
    first_cell: i32,
    masks: &'a [u32],
}

struct Reader<'a> {
    words: &'a [u32],
    at: usize,
}

impl<'a> Reader<'a> {
    fn word(&mut self) -> Result<u32, Refusal> {
        let Some(&word) = self.words.get(self.at) else {
            return refuse(1, self.words.len());
        };
        self.at += 1;
        Ok(word)
    }

    /// A word that the test lets pass, or else that refusal.
    fn tested(&mut self, number: u32, test: impl Fn(u32) -> bool) -> Result<u32, Refusal> {
        let word = self.word()?;
        if test(word) {
            Ok(word)
        } else {
            refuse(number, self.at - 1)
        }
    }

    fn lines(&mut self, clues: &mut Vec<&'a [u32]>) -> Result<usize, Refusal> {
        let n = self.tested(2, |n| (1..=64).contains(&n))?;
        for _ in 0..n {
            let blocks = self.tested(3, |n| n <= 64)?;
            let begin = self.at;
            for _ in 0..blocks {
                self.tested(4, |size| size != 0)?;
                self.tested(5, |color| (1..=31).contains(&color))?;
            }
            clues.push(&self.words[begin..self.at]);
        }
        Ok(n as usize)
    }

    fn cells(&mut self, area: usize) -> Result<&'a [u32], Refusal> {
        self.tested(7, |n| n as usize == area)?;
        let begin = self.at;
        for _ in 0..area {
            self.tested(8, |mask| mask != 0)?;
        }
        Ok(&self.words[begin..])
    }
}

impl<'a> Puzzle<'a> {
    fn read(words: &'a [u32]) -> Result<Self, Refusal> {
        let mut reader = Reader { words, at: 0 };
        let mut clues = Vec::with_capacity(128);
        let width = reader.lines(&mut clues)?;
        let height = reader.lines(&mut clues)?;
        let masks = reader.cells(width * height)?;
        if reader.at < words.len() {
            return refuse(11, reader.at);
        }
        let mut blocks = Vec::with_capacity(clues.iter().map(|clue| clue.len() / 2).sum());
        let mut lines = Vec::with_capacity(width + height);
        let mut first = 1;
        for (l, clue) in clues.iter().enumerate() {
            let length = if l < width { height } else { width };
            let begin = blocks.len();
            let (mut end, mut before) = (0, 0);
            for block in clue.chunks_exact(2) {
                let (size, color) = (block[0] as usize, block[1]);
                let start = end + usize::from(color == before);
                blocks.push(Block { size, color, start, first: 0 });
                (end, before) = (start + size, color);
            }
            if length < end {
                return refuse(6, l);
            }
            let positions = length - end + 1;
            for block in &mut blocks[begin..] {
                block.first = first;
                first += positions as i32;
            }
            lines.push(Line { blocks: begin..blocks.len(), positions });
        }
        let rows = lines[width].blocks.start;
        let colors = match blocks[rows..].iter().fold(0, |all, block| all | 1 << block.color) {
            0 => 2,
            all => all,
        };
        if let Some(column) = lines[..width].iter().position(|line| blocks[line.blocks.clone()].iter().any(|b| colors >> b.color & 1 == 0))
        {
            return refuse(9, column);
        }
        if let Some(cell) = masks.iter().position(|mask| mask.is_power_of_two() && mask & (colors | 1) == 0) {
            return refuse(10, cell);
        }
        let palette = (1..32).filter(|color| colors >> color & 1 == 1).collect();
        Ok(Self { width, height, blocks, lines, colors, palette, first_cell: first, masks })
    }

    fn blocks(&self, line: &Line) -> &[Block] {
        &self.blocks[line.blocks.clone()]
    }

    /// The first variable of a cell.
    fn cell(&self, x: usize, y: usize) -> i32 {
        self.first_cell + ((y * self.width + x) * self.palette.len()) as i32
    }

    /// Hands over each position of a colour that covers cell t of line l; from the first that begins behind it on, none does.
    fn covering(&self, l: usize, t: usize, color: u32, mut found: impl FnMut(i32)) {
        let line = &self.lines[l];
        for block in self.blocks(line).iter().filter(|block| block.color == color) {
            for (v, start) in (block.first..).zip(block.start..block.start + line.positions) {
                if t < start {
                    break;
                }
                if t < start + block.size {
                    found(v);
                }
            }
        }
    }
}

/// How far the earlier block must be ahead to meet the later.
fn distance(a: &Block, b: &Block) -> usize {
    b.start - (a.start + a.size) + usize::from(a.color != b.color)
}

// Clauses.

/// The clauses of each section, and the words of all.
fn count(puzzle: &Puzzle) -> ([usize; 10], usize) {
    let (columns, rows) = puzzle.lines.split_at(puzzle.width);
    let blocks = |lines: &[Line]| lines.iter().map(|line| line.blocks.len()).sum::<usize>();
    let once = |lines: &[Line]| lines.iter().map(|line| line.blocks.len() * (line.positions * (line.positions - 1) / 2)).sum::<usize>();
    let overlap = |lines: &[Line]| {
        let mut total = 0;
        for line in lines {
            let blocks = puzzle.blocks(line);
            for (i, a) in blocks.iter().enumerate() {
                for b in &blocks[i + 1..] {
                    let n = line.positions.saturating_sub(distance(a, b));
                    total += n * (n + 1) / 2;
                }
            }
        }
        total
    };
    let k = puzzle.palette.len();
    let cells = puzzle.masks.len();
    let space = puzzle.lines.iter().map(|line| line.positions * puzzle.blocks(line).iter().map(|block| block.size).sum::<usize>()).sum();
    let units = |&mask: &u32| match mask {
        1 => k,
        _ if mask.is_power_of_two() => 1,
        _ => (puzzle.colors & !mask).count_ones() as usize,
    };
    let color = 2 * cells * k;
    let point = cells * (k * (k - 1) / 2);
    let units = puzzle.masks.iter().map(units).sum();
    let twos = once(columns) + once(rows) + overlap(columns) + overlap(rows) + space + point;
    let literals = puzzle.first_cell as usize - 1 + 2 * twos + color + space + units;
    let sections = [blocks(columns), blocks(rows), once(columns), once(rows), overlap(columns), overlap(rows), color, space, point, units];
    (sections, 10 + sections.iter().sum::<usize>() + literals)
}

struct Writer<'a> {
    out: &'a mut [i32],
    at: usize,
}

impl Writer<'_> {
    fn put(&mut self, word: i32) {
        self.out[self.at] = word;
        self.at += 1;
    }

    fn two(&mut self, a: i32, b: i32) {
        self.out[self.at..self.at + 3].copy_from_slice(&[2, a, b]);
        self.at += 3;
    }

    /// x with none of the n variables from y on.
    fn row(&mut self, x: i32, y: i32, n: usize) {
        for (clause, y) in self.out[self.at..self.at + 3 * n].chunks_exact_mut(3).zip(y..) {
            clause.copy_from_slice(&[2, -x, -y]);
        }
        self.at += 3 * n;
    }

    fn at_most_one(&mut self, v: i32, n: usize) {
        for i in 0..n {
            self.row(v + i as i32, v + i as i32 + 1, n - 1 - i);
        }
    }
}

pub fn clauses(words: &[u32], out: &mut [i32]) -> Answer {
    let puzzle = Puzzle::read(words)?;
    let (counts, needed) = count(&puzzle);
    if out.len() < needed {
        return refuse(12, needed);
    }
    let mut out = Writer { out, at: 0 };
    let (columns, rows) = puzzle.lines.split_at(puzzle.width);
    for (lines, count) in [columns, rows].into_iter().zip(&counts[0..2]) {
        out.put(*count as i32);
        for line in lines {
            for block in puzzle.blocks(line) {
                out.put(line.positions as i32);
                (block.first..).take(line.positions).for_each(|v| out.put(v));
            }
        }
    }
    for (lines, count) in [columns, rows].into_iter().zip(&counts[2..4]) {
        out.put(*count as i32);
        for line in lines {
            for block in puzzle.blocks(line) {
                out.at_most_one(block.first, line.positions);
            }
        }
    }
    for (lines, count) in [columns, rows].into_iter().zip(&counts[4..6]) {
        out.put(*count as i32);
        for line in lines {
            let blocks = puzzle.blocks(line);
            for (i, a) in blocks.iter().enumerate() {
                for b in &blocks[i + 1..] {
                    let d = distance(a, b);
                    for i in d..line.positions {
                        out.row(a.first + i as i32, b.first, i + 1 - d);
                    }
                }
            }
        }
    }
    let cells = || (0..puzzle.width).flat_map(|x| (0..puzzle.height).map(move |y| (x, y)));
    out.put(counts[6] as i32);
    for (x, y) in cells() {
        for (v, &color) in (puzzle.cell(x, y)..).zip(&puzzle.palette) {
            for (l, t) in [(x, y), (puzzle.width + y, x)] {
                let begin = out.at;
                out.put(0);
                puzzle.covering(l, t, color, |position| out.put(position));
                out.put(-v);
                out.out[begin] = (out.at - begin - 1) as i32;
            }
        }
    }
    out.put(counts[7] as i32);
    for (x, y) in cells() {
        for (v, &color) in (puzzle.cell(x, y)..).zip(&puzzle.palette) {
            for (l, t) in [(x, y), (puzzle.width + y, x)] {
                puzzle.covering(l, t, color, |position| out.two(-position, v));
            }
        }
    }
    out.put(counts[8] as i32);
    for (x, y) in cells() {
        out.at_most_one(puzzle.cell(x, y), puzzle.palette.len());
    }
    out.put(counts[9] as i32);
    for (&mask, first) in puzzle.masks.iter().zip((puzzle.first_cell..).step_by(puzzle.palette.len())) {
        for (v, color) in (first..).zip(&puzzle.palette) {
            let there = mask >> color & 1 == 1;
            if mask == 1 || !mask.is_power_of_two() && !there {
                out.put(1);
                out.put(-v);
            } else if mask.is_power_of_two() && there {
                out.put(1);
                out.put(v);
            }
        }
    }
    Ok(out.at)
}

// Models.

/// The clauses that were passed so far; an error is the place of a false one.
struct Checker<'a> {
    model: &'a [u8],
    at: usize,
}

impl Checker<'_> {
    fn on(&self, v: i32) -> bool {
        self.model[v as usize - 1] == 1
    }

    fn from(&self, v: i32, n: usize) -> &[u8] {
        &self.model[v as usize - 1..][..n]
    }

    fn one(&mut self, holds: bool) -> Result<(), usize> {
        if !holds {
            return Err(self.at);
        }
        self.at += 1;
        Ok(())
    }

    fn row(&mut self, x: i32, y: i32, n: usize) -> Result<(), usize> {
        if self.on(x) {
            if let Some(j) = self.from(y, n).iter().position(|&y| y == 1) {
                return Err(self.at + j);
            }
        }
        self.at += n;
        Ok(())
    }

    fn at_most_one(&mut self, v: i32, n: usize) -> Result<(), usize> {
        for i in 0..n {
            self.row(v + i as i32, v + i as i32 + 1, n - 1 - i)?;
        }
        Ok(())
    }
}

fn check(puzzle: &Puzzle, model: &[u8]) -> Result<(), usize> {
    let mut test = Checker { model, at: 0 };
    for line in &puzzle.lines {
        for block in puzzle.blocks(line) {
            test.one(test.from(block.first, line.positions).contains(&1))?;
        }
    }
    for line in &puzzle.lines {
        for block in puzzle.blocks(line) {
            test.at_most_one(block.first, line.positions)?;
        }
    }
    for line in &puzzle.lines {
        let blocks = puzzle.blocks(line);
        for (i, a) in blocks.iter().enumerate() {
            for b in &blocks[i + 1..] {
                let d = distance(a, b);
                for i in d..line.positions {
                    test.row(a.first + i as i32, b.first, i + 1 - d)?;
                }
            }
        }
    }
    let cells = || (0..puzzle.width).flat_map(|x| (0..puzzle.height).map(move |y| (x, y)));
    for (x, y) in cells() {
        for (v, &color) in (puzzle.cell(x, y)..).zip(&puzzle.palette) {
            for (l, t) in [(x, y), (puzzle.width + y, x)] {
                let mut holds = !test.on(v);
                if !holds {
                    puzzle.covering(l, t, color, |position| holds |= test.on(position));
                }
                test.one(holds)?;
            }
        }
    }
    for (x, y) in cells() {
        for (v, &color) in (puzzle.cell(x, y)..).zip(&puzzle.palette) {
            let on = test.on(v);
            for (l, t) in [(x, y), (puzzle.width + y, x)] {
                let (mut n, mut wrong) = (0, None);
                puzzle.covering(l, t, color, |position| {
                    if !on && wrong.is_none() && test.on(position) {
                        wrong = Some(n);
                    }
                    n += 1;
                });
                if let Some(n) = wrong {
                    return Err(test.at + n);
                }
                test.at += n;
            }
        }
    }
    for (x, y) in cells() {
        test.at_most_one(puzzle.cell(x, y), puzzle.palette.len())?;
    }
    for (&mask, first) in puzzle.masks.iter().zip((puzzle.first_cell..).step_by(puzzle.palette.len())) {
        for (v, color) in (first..).zip(&puzzle.palette) {
            let there = mask >> color & 1 == 1;
            if mask == 1 || !mask.is_power_of_two() && !there {
                test.one(!test.on(v))?;
            } else if mask.is_power_of_two() && there {
                test.one(test.on(v))?;
            }
        }
    }
    Ok(())
}

pub fn check_model(words: &[u32], model: &[u8], out: &mut [u8]) -> Answer {
    let puzzle = Puzzle::read(words)?;
    let first = puzzle.first_cell as usize - 1;
    let (cells, k) = (puzzle.masks.len(), puzzle.palette.len());
    let variables = first + cells * k;
    if model.len() != variables {
        return refuse(13, variables);
    }
    if let Some(byte) = model.iter().position(|&byte| byte > 1) {
        return refuse(14, byte);
    }
    if let Err(clause) = check(&puzzle, model) {
        return refuse(15, clause);
    }
    let on = |cell: &[u8]| cell.iter().filter(|&&byte| byte == 1).count();
    if let Some(cell) = model[first..].chunks_exact(k).position(|cell| on(cell) > 1) {
        return refuse(16, cell);
    }
    if out.len() < cells {
        return refuse(12, cells);
    }
    for (byte, cell) in out.iter_mut().zip(model[first..].chunks_exact(k)) {
        *byte = cell.iter().position(|&byte| byte == 1).map_or(0, |rank| puzzle.palette[rank] as u8);
    }
    Ok(cells)
}

// DIMACS.

fn digits(n: u32) -> usize {
    n.checked_ilog10().unwrap_or(0) as usize + 1
}

/// Tests the words and adds up: the clauses, and the bytes of their lines.
fn measure(variables: u32, sections: usize, words: &[i32]) -> Result<(usize, usize), Refusal> {
    let mut at = 0;
    let count = |at: &mut usize| match words.get(*at) {
        Some(&n) if n >= 0 => {
            *at += 1;
            Ok(n as usize)
        }
        _ => refuse(22, *at),
    };
    let (mut clauses, mut bytes) = (0, 0);
    for _ in 0..sections {
        let n = count(&mut at)?;
        for _ in 0..n {
            let n = count(&mut at)?;
            let clause = &words[at..words.len().min(at + n)];
            for (i, &literal) in clause.iter().enumerate() {
                let v = literal.unsigned_abs();
                if v == 0 || v > variables {
                    return refuse(22, at + i);
                }
                bytes += usize::from(literal < 0) + digits(v) + 1;
            }
            at += clause.len();
            if clause.len() < n {
                return refuse(22, at);
            }
            bytes += 2;
        }
        clauses += n;
    }
    if at < words.len() {
        return refuse(22, at);
    }
    Ok((clauses, bytes))
}

struct Text<'a> {
    out: &'a mut [u8],
    at: usize,
}

impl Text<'_> {
    fn bytes(&mut self, bytes: &[u8]) {
        self.out[self.at..self.at + bytes.len()].copy_from_slice(bytes);
        self.at += bytes.len();
    }

    fn number(&mut self, n: u32) {
        self.at = put_number(n, self.out, self.at);
    }

    /// The last digit first, in a loop from the end.
    fn number_by_loop(&mut self, mut n: u32) {
        let end = self.at + digits(n);
        for byte in self.out[self.at..end].iter_mut().rev() {
            *byte = b'0' + (n % 10) as u8;
            n /= 10;
        }
        self.at = end;
    }
}

/// The digits of its tenth first, and then the last, as the library does it.
fn put_number(n: u32, out: &mut [u8], mut at: usize) -> usize {
    if n >= 10 {
        at = put_number(n / 10, out, at);
    }
    out[at] = b'0' + (n % 10) as u8;
    at + 1
}

pub fn dimacs(variables: usize, sections: usize, words: &[i32], out: &mut [u8]) -> Answer {
    write(variables, sections, words, out, Text::number)
}

pub fn dimacs_by_loop(variables: usize, sections: usize, words: &[i32], out: &mut [u8]) -> Answer {
    write(variables, sections, words, out, Text::number_by_loop)
}

fn write<'a>(variables: usize, sections: usize, words: &[i32], out: &'a mut [u8], number: impl Fn(&mut Text<'a>, u32)) -> Answer {
    if variables > 1_000_000 {
        return refuse(21, 0);
    }
    if sections > 16 {
        return refuse(21, 1);
    }
    if words.len() > 1_073_741_824 {
        return refuse(21, 2);
    }
    let (clauses, bytes) = measure(variables as u32, sections, words)?;
    let needed = b"p cnf  \n".len() + digits(variables as u32) + digits(clauses as u32) + bytes;
    if out.len() < needed {
        return refuse(12, needed);
    }
    let mut text = Text { out, at: 0 };
    text.bytes(b"p cnf ");
    number(&mut text, variables as u32);
    text.bytes(b" ");
    number(&mut text, clauses as u32);
    text.bytes(b"\n");
    let mut rest = words;
    while let Some((&clauses, mut section)) = rest.split_first() {
        for _ in 0..clauses {
            let (clause, behind) = section[1..].split_at(section[0] as usize);
            for &literal in clause {
                if literal < 0 {
                    text.bytes(b"-");
                }
                number(&mut text, literal.unsigned_abs());
                text.bytes(b" ");
            }
            text.bytes(b"0\n");
            section = behind;
        }
        rest = section;
    }
    Ok(text.at)
}

// Grids.

/// Hands over each run of a line: its size and its colour.
fn runs(line: impl Iterator<Item = u8>, mut found: impl FnMut(u32, u8)) {
    let (mut size, mut color) = (0, 0);
    for cell in line {
        if cell == color {
            size += 1;
            continue;
        }
        if color != 0 {
            found(size, color);
        }
        (size, color) = (1, cell);
    }
    if color != 0 {
        found(size, color);
    }
}

pub fn read_grid(width: usize, height: usize, grid: &[u8], out: &mut [u32]) -> Answer {
    if !(1..=64).contains(&width) {
        return refuse(2, 0);
    }
    if !(1..=64).contains(&height) {
        return refuse(2, 1);
    }
    if grid.len() != width * height {
        return refuse(7, grid.len());
    }
    if let Some(cell) = grid.iter().position(|&cell| cell > 31) {
        return refuse(18, cell);
    }
    let column = |x: usize| grid[x..].iter().step_by(width).copied();
    let rows = || grid.chunks_exact(width).map(|row| row.iter().copied());
    let mut needed = 3 + width + height + grid.len();
    (0..width).for_each(|x| runs(column(x), |_, _| needed += 2));
    rows().for_each(|row| runs(row, |_, _| needed += 2));
    if out.len() < needed {
        return refuse(12, needed);
    }
    out[0] = width as u32;
    let mut at = 1;
    for x in 0..width {
        at += put_clue(column(x), &mut out[at..]);
    }
    out[at] = height as u32;
    at += 1;
    for row in rows() {
        at += put_clue(row, &mut out[at..]);
    }
    let mask = match grid.iter().fold(1, |all, cell| all | 1 << cell) {
        1 => 3,
        all => all,
    };
    out[at] = grid.len() as u32;
    out[at + 1..needed].fill(mask);
    Ok(needed)
}

fn put_clue(line: impl Iterator<Item = u8>, out: &mut [u32]) -> usize {
    let mut at = 1;
    runs(line, |size, color| {
        out[at..at + 2].copy_from_slice(&[size, color.into()]);
        at += 2;
    });
    out[0] = (at / 2) as u32;
    at
}
