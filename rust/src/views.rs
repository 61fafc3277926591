//! Bindings, buffers, variables, types and members as the tables hold them.

use crate::layout::{node, record};
use crate::spelling::{text, written};
use crate::{raw, Refusal, ResourceDef};
use std::fmt;

mod iterators;

pub use iterators::{Bindings, ConstantBuffers, Members, Variables};

/// A reflection that a view looks at, and the number of a record in its table.
#[derive(Clone, Copy)]
struct At<'r> {
    def: &'r ResourceDef<'r>,
    index: usize,
}

impl<'r> At<'r> {
    fn words(self, table: usize) -> &'r [u32] {
        self.def.record(table, self.index)
    }

    fn text(self, words: &[u32]) -> &'r str {
        text(self.def.bytes(words))
    }
}

impl fmt::Debug for At<'_> {
    fn fmt(&self, f: &mut fmt::Formatter<'_>) -> fmt::Result {
        write!(f, "record {}", self.index)
    }
}

const BINDINGS: usize = 0;
const BUFFERS: usize = 1;
const VARIABLES: usize = 2;
const TYPES: usize = 3;

/// A binding. Printed, it is its listed line.
#[derive(Clone, Copy, Debug)]
pub struct ResourceBinding<'r> {
    /// Its name.
    pub name: &'r str,
    /// `D3D_SHADER_INPUT_TYPE`, 0 to 13.
    pub input_type: u32,
    /// Return type of a typed resource.
    pub return_type: u32,
    /// `D3D_SRV_DIMENSION`, 0 to 11.
    pub dimension: u32,
    /// Number of samples.
    pub num_samples: u32,
    /// Register slot.
    pub bind_point: u32,
    /// Number of registers.
    pub bind_count: u32,
    /// `D3D_SHADER_INPUT_FLAGS`.
    pub flags: u32,
    /// Register space; 0 where bindings have 32 bytes.
    pub space: u32,
    /// Range number; 0 where bindings have 32 bytes.
    pub id: u32,
    at: At<'r>,
}

impl<'r> ResourceBinding<'r> {
    fn new(at: At<'r>) -> ResourceBinding<'r> {
        let w = at.words(BINDINGS);
        ResourceBinding {
            name: at.text(&w[record::NAME..]),
            input_type: w[3],
            return_type: w[4],
            dimension: w[5],
            num_samples: w[6],
            bind_point: w[7],
            bind_count: w[8],
            flags: w[9],
            space: w[10],
            id: w[11],
            at,
        }
    }

    /// Its number, for edits.
    #[must_use]
    pub fn index(&self) -> usize {
        self.at.index
    }

    /// The listed line.
    ///
    /// # Errors
    ///
    /// 17 where it would be over 65,536 bytes.
    pub fn listed(&self) -> Result<String, Refusal> {
        self.list(self.at.words(BINDINGS), str::to_owned)
    }

    fn list<T>(&self, words: &[u32], then: impl FnOnce(&str) -> T) -> Result<T, Refusal> {
        let def = self.at.def;
        written(|out, length| raw::list_binding(&def.chunk, &def.edits, words, out, length), then)
    }
}

impl fmt::Display for ResourceBinding<'_> {
    fn fmt(&self, f: &mut fmt::Formatter<'_>) -> fmt::Result {
        match self.list(self.at.words(BINDINGS), |line| f.write_str(line)) {
            Ok(done) => done,
            // Too long for the library, so much longer than the name's 20 columns: the name, then the columns of a binding without a name.
            Err(_) => {
                let mut nameless = self.at.words(BINDINGS).to_vec();
                nameless[..3].fill(0);
                f.write_str(self.name)?;
                self.list(&nameless, |line| f.write_str(line.get(20..).unwrap_or_default())).unwrap_or(Ok(()))
            }
        }
    }
}

/// A constant buffer.
#[derive(Clone, Copy, Debug)]
pub struct CBufferDef<'r> {
    /// Its name.
    pub name: &'r str,
    /// Its size in bytes.
    pub size: u32,
    /// Its flags.
    pub flags: u32,
    /// 0 for a constant buffer, 1 for a texture buffer, and so on.
    pub cb_type: u32,
    at: At<'r>,
    /// Its first variable and that variable's node.
    first: (usize, usize),
}

impl<'r> CBufferDef<'r> {
    fn new(at: At<'r>, first: (usize, usize)) -> CBufferDef<'r> {
        let w = at.words(BUFFERS);
        CBufferDef { name: at.text(&w[record::NAME..]), size: w[4], flags: w[5], cb_type: w[6], at, first }
    }

    /// Its number, for edits.
    #[must_use]
    pub fn index(&self) -> usize {
        self.at.index
    }

    /// Its variables in their order.
    #[must_use]
    pub fn variables(&self) -> Variables<'r> {
        let (next, node) = self.first;
        Variables {
            def: self.at.def,
            next,
            end: next + self.at.words(BUFFERS)[record::BUFFER_VARIABLE_COUNT] as usize,
            node,
        }
    }
}

/// A variable of a constant buffer.
#[derive(Clone, Copy, Debug)]
pub struct CBufferVariable<'r> {
    /// Its name.
    pub name: &'r str,
    /// Where it begins in the buffer, in bytes.
    pub offset: u32,
    /// Its size in bytes.
    pub size: u32,
    /// `D3D_SHADER_VARIABLE_FLAGS`.
    pub flags: u32,
    /// Its type.
    pub var_type: TypeDesc<'r>,
    /// Its default value; empty where there is none.
    pub default_value: &'r [u8],
    /// Its first texture slot; major 5 alone has this and the next three.
    pub texture_start: Option<u32>,
    /// How many texture slots it has.
    pub texture_size: Option<u32>,
    /// Its first sampler slot.
    pub sampler_start: Option<u32>,
    /// How many sampler slots it has.
    pub sampler_size: Option<u32>,
    at: At<'r>,
}

impl<'r> CBufferVariable<'r> {
    fn new(at: At<'r>, root: usize) -> CBufferVariable<'r> {
        let w = at.words(VARIABLES);
        let slot = |position: usize| at.def.is_major_5().then(|| w[position]);
        CBufferVariable {
            name: at.text(&w[record::NAME..]),
            offset: w[3],
            size: w[record::VARIABLE_SIZE],
            flags: w[5],
            var_type: TypeDesc::new(At { def: at.def, index: root }),
            default_value: at.def.bytes(&w[record::VARIABLE_DEFAULT..]),
            texture_start: slot(9),
            texture_size: slot(10),
            sampler_start: slot(11),
            sampler_size: slot(12),
            at,
        }
    }

    /// Its number among the variables of all buffers, for edits.
    #[must_use]
    pub fn index(&self) -> usize {
        self.at.index
    }

    /// Its declaration, as `float4[10] glyphs;`.
    ///
    /// # Errors
    ///
    /// 18 where its type has no spelling, 17 where it would be over 65,536 bytes.
    pub fn declaration(&self) -> Result<String, Refusal> {
        let (def, node, variable) = (self.at.def, self.var_type.at.words(TYPES), self.at.words(VARIABLES));
        written(|out, length| raw::declaration(&def.chunk, &def.edits, node, variable, out, length), str::to_owned)
    }
}

/// A type.
#[derive(Clone, Copy, Debug)]
pub struct TypeDesc<'r> {
    /// `D3D_SHADER_VARIABLE_CLASS`.
    pub class: u16,
    /// `D3D_SHADER_VARIABLE_TYPE`.
    pub var_type: u16,
    /// Rows.
    pub rows: u16,
    /// Columns.
    pub columns: u16,
    /// Elements of an array; 0 for no array.
    pub elements: u16,
    /// Four words that major 5 alone has.
    pub sm5_extra: Option<[u32; 4]>,
    /// Its name; major 4 has none.
    pub name: &'r str,
    at: At<'r>,
}

impl<'r> TypeDesc<'r> {
    fn new(at: At<'r>) -> TypeDesc<'r> {
        let w = at.words(TYPES);
        // The first six words of a node are of 16 bits.
        let [class, var_type, rows, columns, elements] = [w[0], w[1], w[2], w[3], w[4]].map(|word| word as u16);
        let extra = || std::array::from_fn(|index| w[node::EXTRA + index]);
        let sm5_extra = at.def.is_major_5().then(extra);
        TypeDesc { class, var_type, rows, columns, elements, sm5_extra, name: at.text(&w[node::NAME..]), at }
    }

    /// The number of its node, for edits.
    #[must_use]
    pub fn index(&self) -> usize {
        self.at.index
    }

    /// Its members in their order.
    #[must_use]
    pub fn members(&self) -> Members<'r> {
        Members { def: self.at.def, left: self.at.words(TYPES)[node::MEMBER_COUNT] as usize, node: self.at.index + 1 }
    }

    /// Its spelling, as `float4[10]`.
    ///
    /// # Errors
    ///
    /// 18 where it has none.
    pub fn spelling(&self) -> Result<String, Refusal> {
        let (def, node) = (self.at.def, self.at.words(TYPES));
        written(|out, length| raw::type_name(&def.chunk, &def.edits, node, out, length), str::to_owned)
    }
}

/// A member of a struct.
#[derive(Clone, Copy, Debug)]
pub struct MemberDesc<'r> {
    /// Its name.
    pub name: &'r str,
    /// Its type.
    pub member_type: TypeDesc<'r>,
    /// Where it begins in the struct, in bytes.
    pub offset: u32,
}
