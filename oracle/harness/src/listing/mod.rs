//! The listing of the program `spoplist`: by the program, by what the Rust reads, and of agents' frames by a plain reading.

pub mod agents;
pub mod classes;
pub mod draw;
pub mod lines;
pub mod program;
pub mod sent;
pub mod sides;
mod smaller;
