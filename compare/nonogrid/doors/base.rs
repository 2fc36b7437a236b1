
// Doors of the harness; what stands above is the supplied file.
impl<B: Block> Description<B> {
    pub fn door_from_line(line: &[ColorId], blank_code: ColorId) -> Self {
        Self::from_line(line, blank_code)
    }

    pub fn door_min_space(&self) -> usize {
        self.min_space()
    }
}
