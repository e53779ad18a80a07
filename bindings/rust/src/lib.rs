#![doc = include_str!("../README.md")]
#![no_std]
#![warn(missing_debug_implementations)]

#[cfg(feature = "alloc")]
extern crate alloc;
#[cfg(feature = "std")]
extern crate std;

mod agent;
mod buffer;
#[cfg(feature = "std")]
mod frames;
pub mod lent;
mod numbers;
#[cfg(feature = "alloc")]
pub mod owned;
mod records;
mod refusal;
pub mod sys;
mod value;

pub use numbers::{ActionType, FrameType, Kind, Metadata, Scope, ABORT, AGREED_FRAME, FIN, MAX_FRAME};
pub use refusal::{refusal_text, Answer, Refusal};
pub use value::{Argument, Text, Value};
