//! Stand-in for probing.rs: what `run` of sat.rs takes of probes and their impacts.

use crate::{block::Block, board::Point};

pub type Impact<B> = Vec<ProbeImpact<B>>;

#[derive(Debug, Clone)]
pub struct ProbeImpact<B: Block> {
    pub point: Point,
    pub color: B::Color,
    pub updated: Vec<(Point, B::Color)>,
}

impl<B: Block> ProbeImpact<B> {
    /// The fourth part is not used by sat.rs.
    pub fn into_tuple(self) -> (Point, B::Color, Vec<(Point, B::Color)>, ()) {
        (self.point, self.color, self.updated, ())
    }
}
