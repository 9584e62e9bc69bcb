//! `desk text` and `desk assemble`: a capture as one record a line in words, and back.
//!
//! The words are those of the second program's assembler. Behind them stands as a remark, which
//! the assembler passes over, what `watch` answered.

pub mod answer;
pub mod answers;
mod assemble;
mod digits;
mod messages;
pub(crate) mod records;
mod remark;
pub(crate) mod words;
mod writer;

pub use assemble::run_assemble;
pub use writer::run_text;
