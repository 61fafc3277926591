//! Where the names, defaults and numbers of a reflection stand in its words.

use super::super::Held;
use crate::rdef::{CBufferVariable, ResourceDef};
use crate::tables::{TYPE_WORDS, WIDTHS};

/// What a text is.
#[derive(Clone, Copy, PartialEq, Eq, Debug)]
pub enum What {
    Creator,
    Binding,
    Buffer,
    Variable,
    Default,
    Type,
    Member,
}

impl What {
    pub const ALL: [What; 7] =
        [What::Creator, What::Binding, What::Buffer, What::Variable, What::Default, What::Type, What::Member];
}

/// The variables of all buffers, of a reflection as rdef.rs has it.
pub fn variables<'d, 'a>(def: &'d mut ResourceDef<'a>) -> Vec<&'d mut CBufferVariable<'a>> {
    def.constant_buffers.iter_mut().flat_map(|buffer| &mut buffer.variables).collect()
}

/// The place of a text's three words: in one of the four tables, or in the header, which counts as the fifth.
#[derive(Clone, Copy, PartialEq, Eq, Debug)]
pub struct Field {
    pub what: What,
    pub table: usize,
    pub at: usize,
}

pub const HEADER: usize = 4;

impl Held {
    pub fn table(&self, table: usize) -> &[u32] {
        if table == HEADER {
            return &self.words.header;
        }
        self.words.tables()[table]
    }

    pub fn table_mut(&mut self, table: usize) -> &mut [u32] {
        match table {
            0 => &mut self.words.bindings,
            1 => &mut self.words.buffers,
            2 => &mut self.words.variables,
            3 => &mut self.words.types,
            _ => &mut self.words.header,
        }
    }

    /// A table to be made longer or shorter.
    pub fn table_vec(&mut self, table: usize) -> &mut Vec<u32> {
        match table {
            0 => &mut self.words.bindings,
            1 => &mut self.words.buffers,
            2 => &mut self.words.variables,
            _ => &mut self.words.types,
        }
    }

    pub fn text_at(&self, field: Field) -> Option<&[u8]> {
        self.text(&self.table(field.table)[field.at..field.at + 3])
    }

    pub fn set(&mut self, field: Field, text: [u32; 3]) {
        self.table_mut(field.table)[field.at..field.at + 3].copy_from_slice(&text);
    }

    /// The nodes that begin a variable's type. The counts must match.
    pub fn roots(&self) -> Vec<usize> {
        let mut roots = Vec::new();
        let mut node = 0;
        for _ in 0..self.count(2) {
            roots.push(node);
            let mut open = 1u64;
            while open > 0 {
                open += u64::from(self.words.types[node * TYPE_WORDS + 5]);
                open -= 1;
                node += 1;
            }
        }
        roots
    }

    /// All names and defaults. The counts must match.
    pub fn fields(&self) -> Vec<Field> {
        let mut fields = vec![Field { what: What::Creator, table: HEADER, at: 2 }];
        let each = [
            (What::Binding, 0, 0),
            (What::Buffer, 1, 0),
            (What::Variable, 2, 0),
            (What::Default, 2, 6),
            (What::Type, 3, 10),
            (What::Member, 3, 13),
        ];
        let roots = self.roots();
        for (what, table, first) in each {
            for record in 0..self.count(table) {
                if what != What::Member || roots.binary_search(&record).is_err() {
                    fields.push(Field { what, table, at: record * WIDTHS[table] + first });
                }
            }
        }
        fields
    }

    /// Those fields that are of this kind.
    pub fn fields_of(&self, what: What) -> Vec<Field> {
        self.fields().into_iter().filter(|field| field.what == what).collect()
    }

    pub fn names(&self) -> Vec<Field> {
        self.fields().into_iter().filter(|field| field.what != What::Default).collect()
    }
}
