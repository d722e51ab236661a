//! "What a register may hold": every limit of the statement, in one place.

/// Metadata, lent or in a row.
pub const METADATA: usize = 16_384;
/// A value, lent, left over in a row, or in normal form.
pub const VALUE: usize = 16_384;
/// A schema.
pub const SCHEMA: usize = 4_096;
/// A path.
pub const PATH: usize = 1_024;
/// A row, lent or to be written.
pub const ROW: usize = 65_535;
/// A cell lent to its reader.
pub const CELL: usize = 16_384;
/// Levels of nesting; the outermost value, or schema node, is level 1.
pub const LEVELS: usize = 16;
