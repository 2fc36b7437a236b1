
// Doors of the harness; what stands above is the supplied file.
impl<B> ClauseGenerator<B>
where
    B: Block,
    B::Color: std::fmt::Debug,
{
    pub fn door_clauses(&self) -> impl Iterator<Item = Vec<Lit>> + '_ {
        self.clauses()
    }

    /// How many clauses come from each of the ten parts that `clauses` puts together.
    pub fn door_counts(&self) -> [usize; 10] {
        let some = |lines: &[LinePositions]| lines.iter().flat_map(|line| line.iter().map(Self::block_positions_clause)).count();
        let once = |lines: &[LinePositions]| lines.iter().flat_map(|line| line.iter().flat_map(Self::block_once_clauses)).count();
        let apart = |lines: &[LinePositions]| lines.iter().filter(|line| line.len() > 1).flat_map(Self::non_overlap_clauses).count();
        let cells = |part: &dyn Fn(Point) -> usize| (0..self.width * self.height).map(|i| part(Point::new(i / self.height, i % self.height))).sum();
        let (columns, rows) = (&self.columns_vars, &self.rows_vars);
        [
            some(columns),
            some(rows),
            once(columns),
            once(rows),
            apart(columns),
            apart(rows),
            cells(&|point| self.cell_color_clauses(point).len()),
            cells(&|point| self.cell_space_clauses(point).len()),
            cells(&|point| self.point_once_clauses(point).count()),
            self.precomputed_cells_clauses().len(),
        ]
    }

    pub fn door_formula(&self) -> CnfFormula {
        self.get_formula()
    }

    pub fn door_implications(&self, probe: Point, color: B::Color, impact: Vec<(Point, B::Color)>) -> Vec<Vec<Lit>> {
        self.generate_implications(probe, color, impact).collect()
    }

    pub fn door_vars(&self, point: Point) -> &HashMap<ColorId, Var> {
        self.get_vars(point)
    }

    pub fn door_clues_vars_count(&self) -> usize {
        self.clues_vars_count()
    }
}
