//! The commands of `desk`, one module each, and what they share.

pub mod case;
pub mod cli;
pub mod compare;
pub mod events;
pub mod export;
pub mod html;
pub mod import;
pub mod log;
pub mod programs;
pub mod sessions;
pub mod sha256;
pub mod spacing;
pub mod tap;
pub mod text;
pub mod timeline;
