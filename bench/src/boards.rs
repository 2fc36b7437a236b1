//! Boards that look like puzzles: rectangles painted over one another until 55 of 100 cells are filled, by a fixed seed.

pub struct Board {
    pub size: usize,
    /// The colours that were painted with; on a small board not all of them find room.
    pub asked: usize,
    pub grid: Vec<u8>,
}

/// Xorshift, of 64 bits.
struct Random(u64);

impl Random {
    fn below(&mut self, n: usize) -> usize {
        self.0 ^= self.0 << 13;
        self.0 ^= self.0 >> 7;
        self.0 ^= self.0 << 17;
        (self.0 >> 33) as usize % n
    }
}

impl Board {
    pub fn paint(size: usize, asked: usize) -> Self {
        let mut random = Random(0x9e37_79b9_7f4a_7c15 ^ (size << 8 | asked) as u64);
        let mut grid = vec![0; size * size];
        let side = 1 + size / 8;
        let mut turn = 0;
        while 100 * grid.iter().filter(|&&cell| cell != 0).count() < 55 * grid.len() {
            let (x, y) = (random.below(size), random.below(size));
            let (width, height) = (1 + random.below(side), 1 + random.below(side));
            turn += 7;
            for row in grid.chunks_mut(size).skip(y).take(height) {
                row.iter_mut().skip(x).take(width).for_each(|cell| *cell = (turn % asked) as u8 + 1);
            }
        }
        Self { size, asked, grid }
    }

    /// The colours that the board has, ascending.
    pub fn colors(&self) -> Vec<u8> {
        (1..32).filter(|color| self.grid.contains(color)).collect()
    }

    /// The model of the picture itself: for each block the position where it is, for each cell its colour.
    pub fn model(&self) -> Vec<u8> {
        let columns = (0..self.size).map(|x| self.grid[x..].iter().step_by(self.size).copied().collect());
        let rows = self.grid.chunks(self.size).map(<[u8]>::to_vec);
        let colors = self.colors();
        let cells = self.grid.iter().flat_map(|cell| colors.iter().map(move |color| u8::from(color == cell)));
        columns.chain(rows).flat_map(|line: Vec<u8>| placed(&line)).chain(cells).collect()
    }
}

/// The variables of a line's blocks.
fn placed(line: &[u8]) -> Vec<u8> {
    let mut slides = Vec::new();
    let (mut at, mut end, mut before) = (0, 0, 0);
    for run in line.chunk_by(|a, b| a == b) {
        if run[0] != 0 {
            let start = end + usize::from(run[0] == before);
            slides.push(at - start);
            (end, before) = (start + run.len(), run[0]);
        }
        at += run.len();
    }
    slides.iter().flat_map(|&slide| (0..=line.len() - end).map(move |i| u8::from(i == slide))).collect()
}
