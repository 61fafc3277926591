//! The words of the tables: limits, widths of records and positions of fields, as docs/ROOM.md has them.

/// Bytes of the longest chunk, and of the longest text of edits.
pub const LONGEST_CHUNK: usize = 65_536;
/// No more bytes are written to an output, however long it is.
pub const LONGEST_OUTPUT: usize = 65_536;
/// An output of so many bytes holds the sentence of every refusal.
pub const LONGEST_REFUSAL_TEXT: usize = 128;

/// Words of the header.
pub const HEADER_WORDS: usize = 12;
/// Words of a binding, a buffer, a variable and a type node: the four tables in their order.
pub const WIDTHS: [usize; 4] = [12, 7, 13, 17];
/// Records that a table has at most, in the same order.
pub const LIMITS: [usize; 4] = [1_024, 64, 2_048, 4_096];
/// Words of scratch that writing needs.
pub const SCRATCH_WORDS: usize = 95_360;

/// Positions in the header. A text takes three words: source, place, length.
pub mod header {
    #![allow(missing_docs)]
    pub const TARGET_VERSION: usize = 0;
    pub const COMPILE_FLAGS: usize = 1;
    pub const CREATOR: usize = 2;
    pub const RD11_IDENTIFIER: usize = 5;
    pub const BINDING_STRIDE: usize = 6;
    pub const INTERFACE_SLOTS: usize = 7;
    /// The four counts, in the order of the tables.
    pub const COUNTS: usize = 8;
}

/// Positions in a binding, a buffer and a variable; each begins with its name, a text.
pub mod record {
    #![allow(missing_docs)]
    pub const NAME: usize = 0;
    pub const BUFFER_VARIABLE_COUNT: usize = 3;
    pub const VARIABLE_SIZE: usize = 4;
    pub const VARIABLE_DEFAULT: usize = 6;
}

/// Positions in a type node.
pub mod node {
    #![allow(missing_docs)]
    pub const MEMBER_COUNT: usize = 5;
    pub const EXTRA: usize = 6;
    pub const NAME: usize = 10;
    pub const MEMBER_NAME: usize = 13;
    pub const MEMBER_OFFSET: usize = 16;
}
