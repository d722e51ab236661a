//! A second program for the seven operations on register Variants, and for the judgement of a row by
//! itself, written from the statement alone, to judge another library by. It shares no code with that
//! library.

pub mod bytes;
pub mod cell;
pub mod doc;
pub mod generate;
pub mod judge;
pub mod limits;
pub mod lotbox;
pub mod metadata;
pub mod normal;
pub mod operations;
pub mod path;
pub mod published;
pub mod rebuild;
pub mod refusal;
pub mod row;
pub mod schema;
pub mod shred;
pub mod text;
pub mod value;
pub mod vectors;
