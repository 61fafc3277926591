//! Edits of names and default values. What is new goes into the reflection's text of edits, and the record's three words say where it lies.
//!
//! An edit is refused with 16 where there is no such record or the reflection would not be readable after it; it then changes nothing.

use crate::layout::{header, node, record, LONGEST_CHUNK, WIDTHS};
use crate::{Refusal, ResourceDef};

/// Where a text's three words lie: in the header, or in a table.
#[derive(Clone, Copy, PartialEq, Eq)]
enum Place {
    Header(usize),
    Table(usize, usize),
}

impl ResourceDef<'_> {
    /// Renames the creator.
    ///
    /// # Errors
    ///
    /// 16: a NUL in it, or no room in the text of edits.
    pub fn set_creator(&mut self, creator: &str) -> Result<(), Refusal> {
        self.put_name(Place::Header(header::CREATOR), creator)
    }

    /// Renames a binding.
    ///
    /// # Errors
    ///
    /// 16: no such binding, a NUL in the name, or no room in the text of edits.
    pub fn set_binding_name(&mut self, binding: usize, name: &str) -> Result<(), Refusal> {
        self.put_name(self.place(0, binding, record::NAME)?, name)
    }

    /// Renames a constant buffer.
    ///
    /// # Errors
    ///
    /// 16: no such buffer, a NUL in the name, or no room in the text of edits.
    pub fn set_buffer_name(&mut self, buffer: usize, name: &str) -> Result<(), Refusal> {
        self.put_name(self.place(1, buffer, record::NAME)?, name)
    }

    /// Renames a variable, given by its number among those of all buffers.
    ///
    /// # Errors
    ///
    /// 16: no such variable, a NUL in the name, or no room in the text of edits.
    pub fn set_variable_name(&mut self, variable: usize, name: &str) -> Result<(), Refusal> {
        self.put_name(self.place(2, variable, record::NAME)?, name)
    }

    /// Gives a variable a default value of its size, or takes it away: an empty one.
    ///
    /// # Errors
    ///
    /// 16: no such variable, a value of another size, or no room in the text of edits.
    pub fn set_default_value(&mut self, variable: usize, value: &[u8]) -> Result<(), Refusal> {
        let place = self.place(2, variable, record::VARIABLE_DEFAULT)?;
        let size = self.record(2, variable)[record::VARIABLE_SIZE] as usize;
        if !value.is_empty() && value.len() != size {
            return Err(Refusal::NOT_READABLE);
        }
        self.put(place, value)
    }

    /// Renames a type, given by its node's number.
    ///
    /// # Errors
    ///
    /// 16: no such node, a NUL in the name, a name in major 4, or no room in the text of edits.
    pub fn set_type_name(&mut self, index: usize, name: &str) -> Result<(), Refusal> {
        if !self.is_major_5() && !name.is_empty() {
            return Err(Refusal::NOT_READABLE);
        }
        self.put_name(self.place(3, index, node::NAME)?, name)
    }

    /// Renames a member, given by the number of its type's node.
    ///
    /// # Errors
    ///
    /// 16: no such node or a variable's own type, a NUL in the name, or no room in the text of edits.
    pub fn set_member_name(&mut self, index: usize, name: &str) -> Result<(), Refusal> {
        let place = self.place(3, index, node::MEMBER_NAME)?;
        if self.is_root(index) {
            return Err(Refusal::NOT_READABLE);
        }
        self.put_name(place, name)
    }

    /// Whether a node is a variable's own type: where no member of the nodes before it is still to come.
    fn is_root(&self, index: usize) -> bool {
        let nodes = self.tables[3].chunks_exact(WIDTHS[3]).take(index);
        nodes.fold(0, |left: usize, words| left.saturating_sub(1) + words[node::MEMBER_COUNT] as usize) == 0
    }

    fn place(&self, table: usize, index: usize, position: usize) -> Result<Place, Refusal> {
        if index < self.count(table) {
            Ok(Place::Table(table, index * WIDTHS[table] + position))
        } else {
            Err(Refusal::NOT_READABLE)
        }
    }

    fn put_name(&mut self, place: Place, name: &str) -> Result<(), Refusal> {
        if name.contains('\0') {
            return Err(Refusal::NOT_READABLE);
        }
        self.put(place, name.as_bytes())
    }

    fn put(&mut self, place: Place, bytes: &[u8]) -> Result<(), Refusal> {
        if self.edits.len() + bytes.len() > LONGEST_CHUNK {
            self.compact_edits(place, bytes)?;
        }
        let text = [
            u32::from(!bytes.is_empty()),
            if bytes.is_empty() { 0 } else { self.edits.len() as u32 },
            bytes.len() as u32,
        ];
        self.edits.extend_from_slice(bytes);
        self.text_mut(place).copy_from_slice(&text);
        Ok(())
    }

    fn text_mut(&mut self, place: Place) -> &mut [u32] {
        match place {
            Place::Header(at) => &mut self.header[at..at + 3],
            Place::Table(table, at) => &mut self.tables[table][at..at + 3],
        }
    }

    /// Drops the edits that nothing lies in any more, if the bytes that replace a text then fit.
    fn compact_edits(&mut self, replaced: Place, bytes: &[u8]) -> Result<(), Refusal> {
        let mut places = vec![Place::Header(header::CREATOR)];
        let texts: [&[usize]; 4] = [
            &[record::NAME],
            &[record::NAME],
            &[record::NAME, record::VARIABLE_DEFAULT],
            &[node::NAME, node::MEMBER_NAME],
        ];
        for (table, positions) in texts.iter().enumerate() {
            for index in 0..self.count(table) {
                places.extend(positions.iter().map(|position| Place::Table(table, index * WIDTHS[table] + position)));
            }
        }
        places.retain(|&place| place != replaced && self.text_mut(place)[0] == 1);
        let mut kept = Vec::new();
        let mut moved = Vec::new();
        for &place in &places {
            let words: [u32; 3] = self.text_mut(place).try_into().map_err(|_| Refusal::NOT_READABLE)?;
            moved.push(kept.len() as u32);
            kept.extend_from_slice(self.bytes(&words));
        }
        if kept.len() + bytes.len() > LONGEST_CHUNK {
            return Err(Refusal::NOT_READABLE);
        }
        for (place, at) in places.into_iter().zip(moved) {
            self.text_mut(place)[1] = at;
        }
        self.edits = kept;
        Ok(())
    }
}
