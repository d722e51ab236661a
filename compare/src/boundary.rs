//! The library's C boundary (`include/tanvelis.h`), an operation for each feature: linked, or served
//! by a program of its own where it cannot be linked.

use crate::loan::Loan;
use crate::served;
#[allow(unused_imports)]
use crate::word::Word;
use second::vectors::Op;

/// Whether the library is linked here; else it is served.
pub const IS_LINKED: bool = cfg!(linked);

/// The operations that the library has.
pub fn operations() -> Vec<Op> {
    Op::ALL.into_iter().filter(|&op| exists(op)).collect()
}

/// Whether the library has an operation.
pub fn exists(op: Op) -> bool {
    match op {
        Op::Check => cfg!(feature = "check"),
        Op::Find => cfg!(feature = "find"),
        Op::Normalise => cfg!(feature = "normalise"),
        Op::Shred => cfg!(feature = "shred"),
        Op::Rebuild => cfg!(feature = "rebuild"),
        Op::Cell => cfg!(feature = "cell"),
        Op::Box => cfg!(feature = "box"),
        Op::Judge => cfg!(feature = "judge"),
    }
}

/// Calls the library on what is lent; all 64-bit numbers it gives, the answer's word first.
pub fn call(loan: &mut Loan) -> Vec<u64> {
    assert!(exists(loan.op), "the library has no {}", loan.op.name());
    match loan.op {
        #[cfg(linked = "check")]
        Op::Check => {
            let [metadata, value] = loan.inputs();
            vec![check(metadata, value).0]
        }
        #[cfg(linked = "find")]
        Op::Find => {
            let [metadata, value, path] = loan.inputs();
            vec![find(metadata, value, path).0]
        }
        #[cfg(linked = "normalise")]
        Op::Normalise => {
            let ([metadata, value], [metadata_out, value_out]) = loan.parts();
            vec![normalise(metadata, value, metadata_out, value_out).0]
        }
        #[cfg(linked = "shred")]
        Op::Shred => {
            let ([schema, metadata, value], [row_out]) = loan.parts();
            vec![shred(schema, metadata, value, row_out).0]
        }
        #[cfg(linked = "rebuild")]
        Op::Rebuild => {
            let ([schema, row], [metadata_out, value_out]) = loan.parts();
            vec![rebuild(schema, row, metadata_out, value_out).0]
        }
        #[cfg(linked = "cell")]
        Op::Cell => {
            let (code, [bytes]) = (loan.code, loan.inputs());
            vec![cell(code, bytes).0, cell_first(code, bytes), cell_second(code, bytes)]
        }
        #[cfg(linked = "box")]
        Op::Box => {
            let [metadata, value] = loan.inputs();
            let [east, north, south, west] = box_sides(metadata, value);
            vec![lot_box(metadata, value).0, east, north, south, west]
        }
        #[cfg(linked = "judge")]
        Op::Judge => {
            let [schema, row] = loan.inputs();
            vec![judge(schema, row).0]
        }
        #[allow(unreachable_patterns)]
        _ => served::call(loan),
    }
}

/// What the library exports: a slice is a pointer and then a length.
mod symbols {
    extern "C" {
        #[cfg(linked = "check")]
        pub fn tanvelis_check(
            md: *const u8,
            md_len: usize,
            value: *const u8,
            value_len: usize,
        ) -> u64;

        #[cfg(linked = "find")]
        pub fn tanvelis_find(
            md: *const u8,
            md_len: usize,
            value: *const u8,
            value_len: usize,
            path: *const u8,
            path_len: usize,
        ) -> u64;

        #[cfg(linked = "normalise")]
        pub fn tanvelis_normalise(
            md: *const u8,
            md_len: usize,
            value: *const u8,
            value_len: usize,
            md_out: *mut u8,
            md_out_len: usize,
            value_out: *mut u8,
            value_out_len: usize,
        ) -> u64;

        #[cfg(linked = "shred")]
        pub fn tanvelis_shred(
            schema: *const u8,
            schema_len: usize,
            md: *const u8,
            md_len: usize,
            value: *const u8,
            value_len: usize,
            row_out: *mut u8,
            row_out_len: usize,
        ) -> u64;

        #[cfg(linked = "rebuild")]
        pub fn tanvelis_rebuild(
            schema: *const u8,
            schema_len: usize,
            row: *const u8,
            row_len: usize,
            md_out: *mut u8,
            md_out_len: usize,
            value_out: *mut u8,
            value_out_len: usize,
        ) -> u64;

        #[cfg(linked = "judge")]
        pub fn tanvelis_judge(
            schema: *const u8,
            schema_len: usize,
            row: *const u8,
            row_len: usize,
        ) -> u64;
    }

    #[cfg(linked = "cell")]
    extern "C" {
        pub fn tanvelis_cell(code: u8, bytes: *const u8, len: usize) -> u64;
        pub fn tanvelis_cell_first(code: u8, bytes: *const u8, len: usize) -> u64;
        pub fn tanvelis_cell_second(code: u8, bytes: *const u8, len: usize) -> u64;
    }

    #[cfg(linked = "box")]
    extern "C" {
        pub fn tanvelis_box(md: *const u8, md_len: usize, value: *const u8, len: usize) -> u64;
        pub fn tanvelis_box_east(md: *const u8, md_len: usize, value: *const u8, len: usize)
            -> u64;
        pub fn tanvelis_box_north(
            md: *const u8,
            md_len: usize,
            value: *const u8,
            len: usize,
        ) -> u64;
        pub fn tanvelis_box_south(
            md: *const u8,
            md_len: usize,
            value: *const u8,
            len: usize,
        ) -> u64;
        pub fn tanvelis_box_west(md: *const u8, md_len: usize, value: *const u8, len: usize)
            -> u64;
    }
}

// In every call below, each pointer and length are those of one slice, lent for the call only.

/// Checks a Variant.
#[cfg(linked = "check")]
pub fn check(md: &[u8], value: &[u8]) -> Word {
    Word(unsafe { symbols::tanvelis_check(md.as_ptr(), md.len(), value.as_ptr(), value.len()) })
}

/// Finds a path in a Variant.
#[cfg(linked = "find")]
pub fn find(md: &[u8], value: &[u8], path: &[u8]) -> Word {
    Word(unsafe {
        symbols::tanvelis_find(
            md.as_ptr(),
            md.len(),
            value.as_ptr(),
            value.len(),
            path.as_ptr(),
            path.len(),
        )
    })
}

/// Normalises a Variant.
#[cfg(linked = "normalise")]
pub fn normalise(md: &[u8], value: &[u8], md_out: &mut [u8], value_out: &mut [u8]) -> Word {
    Word(unsafe {
        symbols::tanvelis_normalise(
            md.as_ptr(),
            md.len(),
            value.as_ptr(),
            value.len(),
            md_out.as_mut_ptr(),
            md_out.len(),
            value_out.as_mut_ptr(),
            value_out.len(),
        )
    })
}

/// Shreds a Variant under a schema.
#[cfg(linked = "shred")]
pub fn shred(schema: &[u8], md: &[u8], value: &[u8], row_out: &mut [u8]) -> Word {
    Word(unsafe {
        symbols::tanvelis_shred(
            schema.as_ptr(),
            schema.len(),
            md.as_ptr(),
            md.len(),
            value.as_ptr(),
            value.len(),
            row_out.as_mut_ptr(),
            row_out.len(),
        )
    })
}

/// Rebuilds a Variant from a row and its schema.
#[cfg(linked = "rebuild")]
pub fn rebuild(schema: &[u8], row: &[u8], md_out: &mut [u8], value_out: &mut [u8]) -> Word {
    Word(unsafe {
        symbols::tanvelis_rebuild(
            schema.as_ptr(),
            schema.len(),
            row.as_ptr(),
            row.len(),
            md_out.as_mut_ptr(),
            md_out.len(),
            value_out.as_mut_ptr(),
            value_out.len(),
        )
    })
}

/// Judges a row under its schema.
#[cfg(linked = "judge")]
pub fn judge(schema: &[u8], row: &[u8]) -> Word {
    Word(unsafe { symbols::tanvelis_judge(schema.as_ptr(), schema.len(), row.as_ptr(), row.len()) })
}

/// Reads one typed cell: its kind.
#[cfg(linked = "cell")]
pub fn cell(code: u8, bytes: &[u8]) -> Word {
    Word(unsafe { symbols::tanvelis_cell(code, bytes.as_ptr(), bytes.len()) })
}

/// The first word of a cell.
#[cfg(linked = "cell")]
pub fn cell_first(code: u8, bytes: &[u8]) -> u64 {
    unsafe { symbols::tanvelis_cell_first(code, bytes.as_ptr(), bytes.len()) }
}

/// The second word of a cell.
#[cfg(linked = "cell")]
pub fn cell_second(code: u8, bytes: &[u8]) -> u64 {
    unsafe { symbols::tanvelis_cell_second(code, bytes.as_ptr(), bytes.len()) }
}

/// Reads a lot's box: whether there is one.
#[cfg(linked = "box")]
pub fn lot_box(md: &[u8], value: &[u8]) -> Word {
    Word(unsafe { symbols::tanvelis_box(md.as_ptr(), md.len(), value.as_ptr(), value.len()) })
}

/// The sides of a lot's box: east, north, south, west.
#[cfg(linked = "box")]
pub fn box_sides(md: &[u8], value: &[u8]) -> [u64; 4] {
    let sides = [
        symbols::tanvelis_box_east,
        symbols::tanvelis_box_north,
        symbols::tanvelis_box_south,
        symbols::tanvelis_box_west,
    ];
    sides.map(|side| unsafe { side(md.as_ptr(), md.len(), value.as_ptr(), value.len()) })
}
