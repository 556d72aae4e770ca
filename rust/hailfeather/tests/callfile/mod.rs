//! The file of calls and its reader. compare/README.md of the repository has the format.

mod bytes;
mod generators;
mod halls;
mod lent;
mod one_call;
mod reader;
mod states;

pub use reader::{Reader, REFUSALS};
