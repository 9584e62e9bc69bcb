//! An independent second implementation of the rules for watching MPLS-TP
//! sessions (continuity check, connectivity verification, remote defect,
//! alarm indication and lock report), written from the rules paper alone.
//!
//! It exists to be compared with another implementation: it reads the same
//! captures and prints the same text, and it plays the same lists of calls.

pub mod assemble;
pub mod capture;
pub mod check;
pub mod compare;
pub mod cover;
pub mod dhc;
pub mod distinct;
pub mod edges;
pub mod group;
pub mod list;
pub mod load;
pub mod log;
pub mod machine;
pub mod make;
pub mod mep_id;
pub mod message;
pub mod morning;
pub mod octets;
pub mod own;
pub mod party;
pub mod places;
pub mod random;
pub mod refusal;
pub mod session;
pub mod settings;
pub mod sound;
pub mod spacing;
pub mod table;
pub mod watch;
pub mod why;
