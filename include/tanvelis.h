/*
 * Tanvelis: seven operations over lent bytes that hold Parquet Variant documents: check, find,
 * normalise, shred, rebuild, cell and box; and judge beside the seven.
 *
 * SLICES. A slice is a pointer and then a length. `const uint8_t *` is an input and is only read;
 * `uint8_t *` is an output buffer, and its length is its room. A pointer is never null, also where
 * the length is 0 (any other pointer will do then). An output buffer overlaps no other slice.
 * Nothing is kept after a call, nothing is allocated, and any bytes at all may be lent. Scratch is on
 * the stack: at most 200 KB for check, find and box, at most 300 KB for normalise and judge, at most
 * 500 KB for rebuild, at most 600 KB for shred.
 *
 * LIMITS. Metadata and value at most 16,384 bytes each; schema 4,096; path 1,024; row 65,535; a cell
 * lent to its reader 16,384. Nesting at most 16 levels, the outermost value being level 1. A longer
 * input may be lent and is refused with 1. All numbers are little-endian.
 *
 * ANSWERS. One 64-bit number comes back, with the parts
 *
 *     bits  0-7    the number, from the table below
 *     bit   8      set when the answer is present: good, found, done or read
 *     bits  9-15   zero
 *     bits 16-39   the first length or value
 *     bits 40-63   the second length or value
 *
 * A part for which a function names no use is zero.
 *
 *     0  done, or absent
 *     1  an input is longer than the above
 *     2  lent metadata breaks its rules
 *     3  lent value breaks its rules under that metadata, nesting included
 *     4  schema, or a cell's type code, breaks its rules
 *     5  path breaks its rules
 *     6  a row does not parse under its schema, or a cell has the wrong size or content
 *     7  a row parses but breaks a rule a to f
 *     8  normalise, shred or rebuild: the document's normal value passes 16,384 bytes; shred also:
 *        the row to be written passes 65,535
 *     9  an output buffer is shorter than what must be written
 *
 * Each is given exactly when its line holds; where several apply, the lowest number is given.
 *
 * BUFFERS. A done answer carries the lengths written; those bytes come first in the buffer and the
 * bytes after them keep their values. A 9 carries the lengths needed; absent and the other refusals
 * carry zeros. None of these changes any buffer.
 */
#ifndef TANVELIS_H
#define TANVELIS_H

#include <stddef.h>
#include <stdint.h>

#ifdef __cplusplus
extern "C" {
#endif

/* The parts of an answer. */
#define TANVELIS_NUMBER(answer) ((uint8_t)((answer) & 0xFF))
#define TANVELIS_PRESENT(answer) ((int)((answer) >> 8 & 1))
#define TANVELIS_FIRST(answer) ((uint32_t)((answer) >> 16 & 0xFFFFFF))
#define TANVELIS_SECOND(answer) ((uint32_t)((answer) >> 40 & 0xFFFFFF))

/* The numbers. */
enum {
    TANVELIS_DONE_OR_ABSENT = 0,
    TANVELIS_TOO_LONG = 1,
    TANVELIS_METADATA_BROKEN = 2,
    TANVELIS_VALUE_BROKEN = 3,
    TANVELIS_SCHEMA_BROKEN = 4,
    TANVELIS_PATH_BROKEN = 5,
    TANVELIS_ROW_BROKEN = 6,
    TANVELIS_ROW_UNLAWFUL = 7,
    TANVELIS_TOO_LARGE = 8,
    TANVELIS_NO_ROOM = 9
};

/*
 * Checks a Variant (metadata and value). Present when both keep their rules.
 * Numbers: 0, 1, 2, 3.
 */
uint64_t tanvelis_check(const uint8_t *metadata, size_t metadata_len,
                        const uint8_t *value, size_t value_len);

/*
 * Finds a path in a Variant. Present when found: first is the start and second the length, in the
 * value. Absent (number 0, not present): wrong kind, no such name, past the end. The empty path is the
 * whole value. A path is steps `60` name or `61` two-byte index, each a one-byte tag, a two-byte
 * length and that many bytes.
 * Numbers: 0, 1, 2, 3, 5.
 */
uint64_t tanvelis_find(const uint8_t *metadata, size_t metadata_len,
                       const uint8_t *value, size_t value_len,
                       const uint8_t *path, size_t path_len);

/*
 * Normalises a Variant: writes the normal form of what it means. Dictionary: exactly the names used,
 * rising, flag set, smallest offset size that holds count and total. Strings short up to 63 bytes.
 * Containers large only above 255 members; id size smallest for the largest id used in that object (1
 * if empty); offset size smallest for the last offset; values in field order.
 * First is the metadata's length and second the value's: written on 0, needed on 9.
 * Numbers: 0, 1, 2, 3, 8, 9.
 */
uint64_t tanvelis_normalise(const uint8_t *metadata, size_t metadata_len,
                            const uint8_t *value, size_t value_len,
                            uint8_t *metadata_out, size_t metadata_out_len,
                            uint8_t *value_out, size_t value_out_len);

/*
 * Shreds a Variant under a schema: writes its row, with normal metadata and normal leftovers. Null is
 * always leftover. An array under a list node and an object under an object node are typed; unnamed
 * fields make one leftover object, none if nothing is left; a missing field is an empty place.
 * First is the row's length: written on 0, needed on 9.
 * Numbers: 0, 1, 2, 3, 4, 8, 9.
 */
uint64_t tanvelis_shred(const uint8_t *schema, size_t schema_len,
                        const uint8_t *metadata, size_t metadata_len,
                        const uint8_t *value, size_t value_len,
                        uint8_t *row_out, size_t row_out_len);

/*
 * Rebuilds a Variant from a row and its schema: writes the normal form. An empty outermost place
 * rebuilds to null; a leftover of the column's own type is legal to read. 7 is given for
 *   a. both fields, node not an object;
 *   b. both, leftover not an object;
 *   c. both, leftover has a name that the node names;
 *   d. no `42`, leftover an object under an object node or an array under a list node;
 *   e. an empty list element;
 *   f. a schema field present whose name is not in the row's dictionary.
 * First is the metadata's length and second the value's: written on 0, needed on 9.
 * Numbers: 0, 1, 4, 6, 7, 8, 9.
 */
uint64_t tanvelis_rebuild(const uint8_t *schema, size_t schema_len,
                          const uint8_t *row, size_t row_len,
                          uint8_t *metadata_out, size_t metadata_out_len,
                          uint8_t *value_out, size_t value_out_len);

/*
 * Judges a row under its schema: what rebuild refuses with 1, 4, 6 or 7, by itself. Present when the row
 * is lawful.
 * Numbers: 0, 1, 4, 6, 7.
 */
uint64_t tanvelis_judge(const uint8_t *schema, size_t schema_len,
                        const uint8_t *row, size_t row_len);

/* The kinds of a cell. */
enum {
    TANVELIS_CELL_NONE = 0,
    TANVELIS_CELL_BOOLEAN = 1,
    TANVELIS_CELL_INTEGER = 2,
    TANVELIS_CELL_FLOAT = 3,
    TANVELIS_CELL_DOUBLE = 4,
    TANVELIS_CELL_LENGTH = 5,
    TANVELIS_CELL_UUID = 6
};

/*
 * Reads one typed cell, given a type code and its bytes. The type codes are those of a schema: 1, 3-7,
 * 11-20 (1 is boolean). Present when read: first is the kind, 0 on a refusal. What the cell holds is
 * given by the two functions below.
 * Numbers: 0, 1, 4, 6.
 */
uint64_t tanvelis_cell(uint8_t code, const uint8_t *bytes, size_t bytes_len);

/*
 * The first word of a cell, by its kind: a boolean as 1 for yes or 0 for no; integers, dates and times
 * as their signed number, in two's complement; a float's or a double's bits, unchanged; string and
 * binary as their length; a uuid's first number, of its first eight bytes. 0 on a refusal.
 */
uint64_t tanvelis_cell_first(uint8_t code, const uint8_t *bytes, size_t bytes_len);

/* The second word of a cell: a uuid's second number, of its last eight bytes; else 0. */
uint64_t tanvelis_cell_second(uint8_t code, const uint8_t *bytes, size_t bytes_len);

/*
 * Reads a lot's box: four doubles named east, north, south and west, from the outermost object of one
 * lent document; other fields are ignored. Present when found. Absent (number 0, not present) unless
 * the value is an object, all four are doubles, west <= east and south <= north, so a NaN is no box.
 * Numbers: 0, 1, 2, 3.
 */
uint64_t tanvelis_box(const uint8_t *metadata, size_t metadata_len,
                      const uint8_t *value, size_t value_len);

/* The sides of a lot's box: each the double's bits, 0 where there is no box. */
uint64_t tanvelis_box_east(const uint8_t *metadata, size_t metadata_len,
                           const uint8_t *value, size_t value_len);
uint64_t tanvelis_box_north(const uint8_t *metadata, size_t metadata_len,
                            const uint8_t *value, size_t value_len);
uint64_t tanvelis_box_south(const uint8_t *metadata, size_t metadata_len,
                            const uint8_t *value, size_t value_len);
uint64_t tanvelis_box_west(const uint8_t *metadata, size_t metadata_len,
                           const uint8_t *value, size_t value_len);

#ifdef __cplusplus
}
#endif

#endif
