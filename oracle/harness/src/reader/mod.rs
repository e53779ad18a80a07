//! Frames and pairs that are read: the sides that are compared, and what they are given.

pub mod again;
pub mod back;
pub mod call;
pub mod classes;
pub mod exact;
pub mod lent;
pub mod model;
pub mod resent;
pub mod rewritten;
pub mod rust;
pub mod sides;
pub mod wire;
