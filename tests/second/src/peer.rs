//! The second program: the register's machine, its run and its judge, written
//! a second time from document 01 and its source, and from nothing else.
//!
//! Each part exists twice where speed and plainness pull apart: `run` and
//! `brute` say what document 01 says, word for word, while `fast_run` and
//! `fast_judge` are written for speed. They are compared with each other as
//! well as with the proved library.

pub mod brute;
pub mod events;
pub mod fast_judge;
pub mod fast_run;
pub mod files;
pub mod machine;
pub mod random;
pub mod run;
mod words;
