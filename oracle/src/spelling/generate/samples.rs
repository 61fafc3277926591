//! The records of chunks that a real compiler made, from the folder samples/.

use crate::generate::samples;
use crate::spelling::{Buffers, Query};
use crate::tables::{BINDING_WORDS, TYPE_WORDS, VARIABLE_WORDS};
use crate::words;

/// Every binding to be listed, every type node to be spelled, every variable to be declared.
pub fn queries() -> Vec<Query> {
    samples::all().iter().flat_map(|sample| of_chunk(&sample.bytes)).collect()
}

/// The same of any chunk that rdef.rs reads.
pub fn of_chunk(chunk: &[u8]) -> Vec<Query> {
    let answer = words::read(chunk).expect("rdef.rs reads the chunk");
    let buffers = || Buffers { chunk: chunk.to_vec(), edits: Vec::new() };
    let mut queries = Vec::new();
    for binding in answer.bindings.chunks(BINDING_WORDS) {
        queries.push(Query::ListBinding(buffers(), record(binding)));
    }
    let nodes: Vec<[u32; TYPE_WORDS]> = answer.types.chunks(TYPE_WORDS).map(record).collect();
    queries.extend(nodes.iter().map(|&node| Query::TypeName(buffers(), node)));
    let mut root = 0;
    for variable in answer.variables.chunks(VARIABLE_WORDS) {
        queries.push(Query::Declaration(buffers(), nodes[root], record(variable)));
        root = after(&nodes, root);
    }
    queries
}

fn record<const N: usize>(words: &[u32]) -> [u32; N] {
    words.try_into().expect("the words of a record")
}

/// The node after the last one below this.
fn after(nodes: &[[u32; TYPE_WORDS]], node: usize) -> usize {
    (0..nodes[node][5]).fold(node + 1, |next, _| after(nodes, next))
}
