//! Stand-in for binary.rs, written from document 01: blocks of one colour, which has no id; a cell is a mask of bit 0, blank, and bit 1, black.

use std::ops::{Add, Sub};

use super::base::{color::ColorId, Block, Color};

#[derive(Debug, PartialEq, Eq, Hash, Clone, Copy)]
pub struct BinaryColor(pub u32);

impl BinaryColor {
    const WHITE: Self = Self(1);
    const BLACK: Self = Self(2);
    const UNDEFINED: Self = Self(3);
}

impl Default for BinaryColor {
    fn default() -> Self {
        Self::UNDEFINED
    }
}

impl Add for BinaryColor {
    type Output = Self;

    fn add(self, other: Self) -> Self {
        Self(self.0 | other.0)
    }
}

impl Sub for BinaryColor {
    type Output = Result<Self, String>;

    fn sub(self, other: Self) -> Result<Self, String> {
        Ok(Self(self.0 & !other.0))
    }
}

impl Color for BinaryColor {
    fn blank() -> Self {
        Self::WHITE
    }

    fn is_solved(self) -> bool {
        self == Self::WHITE || self == Self::BLACK
    }

    fn solution_rate(self, _all_colors: &[ColorId]) -> f64 {
        unimplemented!("not used by the clause generator")
    }

    fn variants(self) -> Vec<Self> {
        if self.is_solved() {
            vec![self]
        } else {
            vec![Self::WHITE, Self::BLACK]
        }
    }

    fn as_color_id(self) -> Option<ColorId> {
        None
    }

    fn from_color_ids(_ids: &[ColorId]) -> Self {
        Self::BLACK
    }
}

#[derive(Debug, PartialEq, Eq, Hash, Default, Clone, Copy)]
pub struct BinaryBlock(pub usize);

impl Block for BinaryBlock {
    type Color = BinaryColor;

    fn from_size_and_color(size: usize, _color: Option<ColorId>) -> Self {
        Self(size)
    }

    /// The end of each block when all are packed to the front, with a blank between any two.
    fn partial_sums(desc: &[Self]) -> Vec<usize> {
        desc.iter()
            .scan(None, |end: &mut Option<usize>, block| {
                *end = Some(end.map_or(0, |end| end + 1) + block.0);
                *end
            })
            .collect()
    }

    fn size(self) -> usize {
        self.0
    }

    fn color(self) -> BinaryColor {
        BinaryColor::BLACK
    }
}
