//! Stand-in for solver.rs: the two modules that are used.

pub mod probing;
pub mod sat;
