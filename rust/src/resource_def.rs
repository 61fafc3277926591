//! A reflection: the header and the four tables of a chunk, with the text of edits.

use crate::layout::{header, HEADER_WORDS, LIMITS, LONGEST_OUTPUT, SCRATCH_WORDS, WIDTHS};
use crate::spelling::text;
use crate::views::{Bindings, ConstantBuffers};
use crate::{raw, Refusal};
use std::borrow::Cow;
use std::cell::RefCell;
use std::fmt;

/// A chunk that was read: bindings, constant buffers with their variables and types, and the creator. Names and default values lie in the chunk, or
/// in a text of edits that the reflection keeps.
#[derive(Clone)]
pub struct ResourceDef<'a> {
    pub(crate) chunk: Cow<'a, [u8]>,
    pub(crate) edits: Vec<u8>,
    pub(crate) header: [u32; HEADER_WORDS],
    /// Bindings, buffers, variables and type nodes: whole records, as many as the header counts.
    pub(crate) tables: [Vec<u32>; 4],
}

/// The layout that a chunk of major 5 declares; its other words are fixed.
#[derive(Clone, Copy, PartialEq, Eq, Debug)]
pub struct Rd11Header {
    /// `RD11` for shader model 5.0, 0x25441313 for 5.1.
    pub identifier: u32,
    /// Bytes of a binding: 32 or 40.
    pub resource_binding_stride: u32,
    /// How many interface slots there are.
    pub interface_slot_count: u32,
}

/// Reads a chunk.
///
/// # Errors
///
/// 1 to 15: the first fault met.
pub fn parse_rdef(data: &[u8]) -> Result<ResourceDef<'_>, Refusal> {
    let mut def = ResourceDef {
        chunk: Cow::Borrowed(data),
        edits: Vec::new(),
        header: [0; HEADER_WORDS],
        tables: likely_tables(data),
    };
    let mut number = def.read();
    // A shorter table can only turn an answer into 15, so that 15 of the whole room is the chunk's own.
    if number == 15 {
        def.tables = std::array::from_fn(|table| vec![0; LIMITS[table] * WIDTHS[table]]);
        number = def.read();
    }
    Refusal::of(number)?;
    for (table, words) in def.tables.iter_mut().enumerate() {
        words.truncate(def.header[header::COUNTS + table] as usize * WIDTHS[table]);
        words.shrink_to_fit();
    }
    Ok(def)
}

/// Tables that are likely long enough: by the counts that the chunk itself states, and three nodes for a variable.
fn likely_tables(chunk: &[u8]) -> [Vec<u32>; 4] {
    let word = |at: usize| {
        let bytes = chunk.get(at..).and_then(|tail| tail.get(..4)).and_then(|four| four.try_into().ok());
        bytes.map_or(0, u32::from_le_bytes) as usize
    };
    let [bindings, buffers] = [word(8).min(LIMITS[0]), word(0).min(LIMITS[1])];
    let variables: usize =
        (0..buffers).map(|buffer| word(word(4).saturating_add(24 * buffer + 4)).min(LIMITS[2])).sum();
    let variables = variables.min(LIMITS[2]);
    let types = (3 * variables + 32).min(LIMITS[3]);
    let counts = [bindings, buffers, variables, types];
    std::array::from_fn(|table| vec![0; counts[table] * WIDTHS[table]])
}

impl<'a> ResourceDef<'a> {
    fn read(&mut self) -> u32 {
        let [bindings, buffers, variables, types] = &mut self.tables;
        raw::parse_rdef(&self.chunk, &mut self.header, bindings, buffers, variables, types)
    }

    /// The same with a chunk of its own.
    #[must_use]
    pub fn into_owned(self) -> ResourceDef<'static> {
        ResourceDef { chunk: Cow::Owned(self.chunk.into_owned()), ..self }
    }

    /// The chunk that was read.
    #[must_use]
    pub fn chunk(&self) -> &[u8] {
        &self.chunk
    }

    /// Minor version in bits 0 to 7, major in 8 to 15, kind of program from 16 on.
    #[must_use]
    pub fn target_version(&self) -> u32 {
        self.header[header::TARGET_VERSION]
    }

    /// Compile flags.
    #[must_use]
    pub fn compile_flags(&self) -> u32 {
        self.header[header::COMPILE_FLAGS]
    }

    /// What the compiler calls itself.
    #[must_use]
    pub fn creator(&self) -> &str {
        text(self.bytes(&self.header[header::CREATOR..]))
    }

    /// The layout that a chunk of major 5 declares.
    #[must_use]
    pub fn rd11(&self) -> Option<Rd11Header> {
        self.is_major_5().then_some(Rd11Header {
            identifier: self.header[header::RD11_IDENTIFIER],
            resource_binding_stride: self.header[header::BINDING_STRIDE],
            interface_slot_count: self.header[header::INTERFACE_SLOTS],
        })
    }

    /// The bindings in their order.
    #[must_use]
    pub fn bindings(&self) -> Bindings<'_> {
        Bindings::new(self)
    }

    /// The constant buffers in their order.
    #[must_use]
    pub fn constant_buffers(&self) -> ConstantBuffers<'_> {
        ConstantBuffers::new(self)
    }

    /// The canonical form: the same bytes for the same fields, names and default values, wherever they lay.
    ///
    /// # Errors
    ///
    /// 17 where it would be over 65,536 bytes.
    pub fn canonical(&self) -> Result<Vec<u8>, Refusal> {
        let [bindings, buffers, variables, types] = &self.tables;
        with_room(|room| {
            let mut length = [0];
            Refusal::of(raw::write_canonical(
                &self.chunk,
                &self.edits,
                &self.header,
                bindings,
                buffers,
                variables,
                types,
                &mut room.scratch,
                &mut room.out,
                &mut length,
            ))?;
            Ok(room.out[..length[0] as usize].to_vec())
        })
    }

    /// The payload: the chunk itself where fields, names and default values are those that it reads as, else the canonical form. What is sent to
    /// others should be the canonical form.
    ///
    /// # Errors
    ///
    /// 17 where the canonical form is needed and would be over 65,536 bytes.
    pub fn payload(&self) -> Result<Cow<'_, [u8]>, Refusal> {
        let [bindings, buffers, variables, types] = &self.tables;
        with_room(|room| {
            let [found_bindings, found_buffers, found_variables, found_types] = &mut room.found;
            let mut answer = [0; 2];
            Refusal::of(raw::write_payload(
                &self.chunk,
                &self.edits,
                &self.header,
                bindings,
                buffers,
                variables,
                types,
                found_bindings,
                found_buffers,
                found_variables,
                found_types,
                &mut room.scratch,
                &mut room.out,
                &mut answer,
            ))?;
            Ok(match answer {
                [0, _] => Cow::Borrowed(&*self.chunk),
                [_, length] => Cow::Owned(room.out[..length as usize].to_vec()),
            })
        })
    }

    pub(crate) fn is_major_5(&self) -> bool {
        self.target_version() >> 8 & 0xff == 5
    }

    /// How many records a table has.
    pub(crate) fn count(&self, table: usize) -> usize {
        self.tables[table].len() / WIDTHS[table]
    }

    /// The words of a record of the table.
    pub(crate) fn record(&self, table: usize, index: usize) -> &[u32] {
        let width = WIDTHS[table];
        &self.tables[table][index * width..][..width]
    }

    /// The bytes of a text by its source, place and length; none where it is out of place.
    pub(crate) fn bytes(&self, text: &[u32]) -> &[u8] {
        let buffer = if text[0] == 0 { &*self.chunk } else { &*self.edits };
        buffer.get(text[1] as usize..).and_then(|tail| tail.get(..text[2] as usize)).unwrap_or_default()
    }
}

impl fmt::Debug for ResourceDef<'_> {
    fn fmt(&self, f: &mut fmt::Formatter<'_>) -> fmt::Result {
        f.debug_struct("ResourceDef")
            .field("target_version", &self.target_version())
            .field("compile_flags", &self.compile_flags())
            .field("creator", &self.creator())
            .field("rd11", &self.rd11())
            .field("bindings", &self.bindings().collect::<Vec<_>>())
            .field("constant_buffers", &self.constant_buffers().collect::<Vec<_>>())
            .finish()
    }
}

/// What writing is lent: writing leaves scratch and tables at 0.
struct Room {
    scratch: Vec<u32>,
    out: Vec<u8>,
    found: [Vec<u32>; 4],
}

impl Room {
    fn new() -> Room {
        Room {
            scratch: vec![0; SCRATCH_WORDS],
            out: vec![0; LONGEST_OUTPUT],
            found: std::array::from_fn(|table| vec![0; LIMITS[table] * WIDTHS[table]]),
        }
    }
}

thread_local! {
    static ROOM: RefCell<Room> = RefCell::new(Room::new());
}

/// Lends the thread's room, which is made once; where it is gone, since the thread is ending, or in use, a room for this call.
fn with_room<T>(write: impl Fn(&mut Room) -> T) -> T {
    let written = ROOM.try_with(|room| room.try_borrow_mut().ok().map(|mut room| write(&mut room)));
    written.ok().flatten().unwrap_or_else(|| write(&mut Room::new()))
}
