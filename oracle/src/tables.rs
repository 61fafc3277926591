//! The words of an answer: a header and four tables of fixed-width records, and the room for them.

/// Words of one record of each table.
pub const BINDING_WORDS: usize = 12;
pub const BUFFER_WORDS: usize = 7;
pub const VARIABLE_WORDS: usize = 13;
pub const TYPE_WORDS: usize = 17;

/// The tables in their order.
pub const TABLE_NAMES: [&str; 4] = ["bindings", "buffers", "variables", "types"];

/// The four record widths in the order of the tables.
pub const WIDTHS: [usize; 4] = [BINDING_WORDS, BUFFER_WORDS, VARIABLE_WORDS, TYPE_WORDS];

/// Document 01's limits, in records, in the same order.
pub const LIMITS: [usize; 4] = [1_024, 64, 2_048, 4_096];

/// How many records of each table there is room for.
#[derive(Clone, Copy, PartialEq, Eq, Debug)]
pub struct Rooms {
    pub bindings: usize,
    pub buffers: usize,
    pub variables: usize,
    pub types: usize,
}

impl Rooms {
    /// All that document 01 allows.
    pub const FULL: Rooms = Rooms { bindings: LIMITS[0], buffers: LIMITS[1], variables: LIMITS[2], types: LIMITS[3] };

    /// The room of lent tables of so many words: their whole records, never more than the limit.
    pub fn lent(words: [usize; 4]) -> Rooms {
        let room = |table: usize| (words[table] / WIDTHS[table]).min(LIMITS[table]);
        Rooms { bindings: room(0), buffers: room(1), variables: room(2), types: room(3) }
    }
}

/// What a chunk reads as. The header is target version, compile flags; creator source, place, length;
/// RD11 identifier, resource binding stride, interface slots; then the four record counts.
#[derive(Clone, PartialEq, Eq, Debug, Default)]
pub struct Answer {
    pub header: [u32; 12],
    pub bindings: Vec<u32>,
    pub buffers: Vec<u32>,
    pub variables: Vec<u32>,
    pub types: Vec<u32>,
}

impl Answer {
    /// The tables in their order.
    pub fn tables(&self) -> [&[u32]; 4] {
        [&self.bindings, &self.buffers, &self.variables, &self.types]
    }

    /// The last four header words, from the tables.
    pub fn count_records(&mut self) {
        let lengths = self.tables().map(<[u32]>::len);
        for table in 0..4 {
            self.header[8 + table] = (lengths[table] / WIDTHS[table]) as u32;
        }
    }
}

/// A text or default in the chunk: source 0, place, length.
#[derive(Clone, Copy, PartialEq, Eq, Debug)]
pub struct Text {
    pub place: u32,
    pub length: u32,
}

impl Text {
    /// The empty text that document 01 puts at place 0.
    pub const NONE: Text = Text { place: 0, length: 0 };

    pub fn words(self) -> [u32; 3] {
        [0, self.place, self.length]
    }
}
