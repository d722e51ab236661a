//! The proved library compared with the second program: the same cases, every answer and every byte
//! of every buffer lent; and both timed on the same inputs.

pub mod bench;
pub mod boundary;
pub mod difference;
pub mod judge;
pub mod loan;
pub mod parts;
pub mod run;
pub mod served;
pub mod sweep;
pub mod vary;
pub mod vectors;
pub mod word;
