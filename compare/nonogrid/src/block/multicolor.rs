//! Stand-in for multicolor.rs, written from document 01: ids are powers of two, of which 1 is white, and a cell is a mask of ids.

use std::ops::{Add, Sub};

use super::base::{
    color::{ColorId, ColorPalette},
    Block, Color,
};
use crate::utils::{from_two_powers, two_powers};

#[derive(Debug, PartialEq, Eq, Hash, Default, Clone, Copy)]
pub struct Multicolor(pub ColorId);

impl Add for Multicolor {
    type Output = Self;

    fn add(self, other: Self) -> Self {
        Self(self.0 | other.0)
    }
}

impl Sub for Multicolor {
    type Output = Result<Self, String>;

    fn sub(self, other: Self) -> Result<Self, String> {
        Ok(Self(self.0 & !other.0))
    }
}

impl Color for Multicolor {
    fn blank() -> Self {
        Self(ColorPalette::WHITE_ID)
    }

    fn is_solved(self) -> bool {
        self.0.is_power_of_two()
    }

    fn solution_rate(self, _all_colors: &[ColorId]) -> f64 {
        unimplemented!("not used by the clause generator")
    }

    fn variants(self) -> Vec<Self> {
        two_powers(self.0).map(Self).collect()
    }

    fn as_color_id(self) -> Option<ColorId> {
        Some(self.0)
    }

    fn from_color_ids(ids: &[ColorId]) -> Self {
        Self(from_two_powers(ids))
    }
}

#[derive(Debug, PartialEq, Eq, Hash, Default, Clone, Copy)]
pub struct ColoredBlock {
    size: usize,
    color: ColorId,
}

impl Block for ColoredBlock {
    type Color = Multicolor;

    fn from_size_and_color(size: usize, color: Option<ColorId>) -> Self {
        Self { size, color: color.expect("a block without a colour") }
    }

    /// The end of each block when all are packed to the front, with a blank between two of one colour.
    fn partial_sums(desc: &[Self]) -> Vec<usize> {
        desc.iter()
            .scan(None, |last: &mut Option<(usize, ColorId)>, block| {
                let start = last.map_or(0, |(end, color)| end + usize::from(color == block.color));
                *last = Some((start + block.size, block.color));
                last.map(|(end, _)| end)
            })
            .collect()
    }

    fn size(self) -> usize {
        self.size
    }

    fn color(self) -> Multicolor {
        Multicolor(self.color)
    }
}
