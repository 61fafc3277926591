//! The canonical form written plainly from document 01. It shares nothing with rdef.rs and writes for
//! clearness, not for speed. It can also be told to fall into one of the traps on the road, so that a sample
//! can be shown to see each.

use super::traps::Trap;
use super::Held;
use crate::tables::{BINDING_WORDS, BUFFER_WORDS, TYPE_WORDS, VARIABLE_WORDS};

/// The canonical form of a readable reflection, or what falls into the trap.
pub fn canonical(held: &Held, trap: Option<Trap>) -> Vec<u8> {
    let [outer, inner, defaults] = [(); 3].map(|()| Texts::new());
    let mut form =
        Form { held, trap, out: Vec::new(), outer, inner, defaults, types: Types::new(), members: Types::new() };
    form.write();
    form.out
}

/// Texts by their three words, with their offsets.
type Texts = Vec<([u32; 3], u32)>;

/// Types by their node, with their offsets.
type Types = Vec<(usize, u32)>;

struct Form<'a> {
    held: &'a Held,
    trap: Option<Trap>,
    out: Vec<u8>,
    /// Names of bindings and buffers; other names; defaults.
    outer: Texts,
    inner: Texts,
    defaults: Texts,
    /// All types that are remembered, and those of them that are members: only for traps.
    types: Types,
    members: Types,
}

impl Form<'_> {
    fn falls(&self, trap: Trap) -> bool {
        self.trap == Some(trap)
    }

    fn words(&mut self, words: &[u32]) {
        words.iter().for_each(|word| self.out.extend(word.to_le_bytes()));
    }

    /// A record, whose first word is patched later; the answer is where it begins.
    fn record(&mut self, words: &[u32]) -> usize {
        self.words(&[0]);
        self.words(words);
        self.out.len() - 4 - 4 * words.len()
    }

    fn patch(&mut self, at: usize, word: u32) {
        self.out[at..at + 4].copy_from_slice(&word.to_le_bytes());
    }

    fn pad(&mut self) -> u32 {
        while self.out.len() % 4 != 0 {
            self.out.push(0xab);
        }
        self.out.len() as u32
    }

    fn bytes(&self, text: [u32; 3]) -> &[u8] {
        self.held.text(&text).expect("a readable reflection")
    }

    fn find(&self, pool: &Texts, text: [u32; 3], by_place: bool) -> Option<u32> {
        let same = |other: &[u32; 3]| if by_place { *other == text } else { self.bytes(*other) == self.bytes(text) };
        pool.iter().find(|(other, _)| same(other)).map(|(_, offset)| *offset)
    }

    fn name(&mut self, text: &[u32], outer: bool) -> u32 {
        let text = [text[0], text[1], text[2]];
        if text[2] == 0 && self.falls(Trap::EmptyNames) {
            return 0;
        }
        let outer = outer || self.falls(Trap::OneStringPool);
        let pool = if outer { &self.outer } else { &self.inner };
        if let Some(offset) = self.find(pool, text, self.falls(Trap::NamesByPlace)) {
            return offset;
        }
        let offset = self.out.len() as u32;
        let bytes = self.bytes(text).to_vec();
        self.out.extend(bytes);
        self.out.push(0);
        if outer { &mut self.outer } else { &mut self.inner }.push((text, offset));
        offset
    }

    fn default(&mut self, text: &[u32]) -> u32 {
        let text = [text[0], text[1], text[2]];
        if text[2] == 0 {
            return 0;
        }
        if let Some(offset) = self.find(&self.defaults, text, self.falls(Trap::DefaultsByPlace)) {
            if self.falls(Trap::PaddedSharedDefaults) {
                self.pad();
            }
            if !self.falls(Trap::FreshDefaults) {
                return offset;
            }
        }
        if !self.falls(Trap::UnpaddedDefaults) {
            self.pad();
        }
        let offset = self.out.len() as u32;
        let bytes = self.bytes(text).to_vec();
        self.out.extend(bytes);
        self.defaults.push((text, offset));
        offset
    }

    fn write(&mut self) {
        let words = &self.held.words;
        let [version, flags, _, _, _, identifier, stride, slots, bindings, buffers, ..] = words.header;
        let major_5 = self.held.is_major_5();
        let header = [buffers, 0, bindings, if major_5 { 60 } else { 28 }, version, flags, 0];
        self.words(&header);
        if major_5 {
            self.words(&[identifier, 60, 24, stride, 40, 36, 12, slots]);
        }

        let bindings: Vec<&[u32]> = words.bindings.chunks_exact(BINDING_WORDS).take(bindings as usize).collect();
        let last = if stride == 40 { 12 } else { 10 };
        let mut places = Vec::new();
        for binding in &bindings {
            places.push(self.record(&binding[3..last]));
        }
        for (place, binding) in places.into_iter().zip(bindings) {
            let name = self.name(&binding[..3], true);
            self.patch(place, name);
        }

        let buffers: Vec<&[u32]> = words.buffers.chunks_exact(BUFFER_WORDS).take(buffers as usize).collect();
        if !buffers.is_empty() || self.falls(Trap::PaddedWithoutBuffers) {
            self.pad();
        }
        if !buffers.is_empty() || self.falls(Trap::OffsetWithoutBuffers) {
            let offset = self.out.len() as u32;
            self.patch(4, offset);
        }
        let mut places = Vec::new();
        for buffer in &buffers {
            places.push(self.record(&[buffer[3], 0, buffer[4], buffer[5], buffer[6]]));
        }
        for (&place, buffer) in places.iter().zip(&buffers) {
            let name = self.name(&buffer[..3], true);
            self.patch(place, name);
        }
        self.variables(&buffers, &places);
        if self.falls(Trap::FreshCreator) {
            self.inner.clear();
        }
        let creator = self.name(&words.header[2..5], false);
        self.patch(24, creator);
        self.pad();
    }

    fn variables(&mut self, buffers: &[&[u32]], places: &[usize]) {
        let (mut variable, mut node) = (0, 0);
        let (mut top, mut members) = (Types::new(), Types::new());
        let slots = if self.held.is_major_5() { 13 } else { 9 };
        for (buffer, place) in buffers.iter().zip(places) {
            if buffer[3] > 0 || !self.falls(Trap::UnpaddedWithoutVariables) {
                self.pad();
            }
            let offset = self.out.len() as u32;
            self.patch(place + 8, offset);
            let records: Vec<&[u32]> =
                self.held.words.variables[variable * VARIABLE_WORDS..].chunks_exact(VARIABLE_WORDS).collect();
            let records = &records[..buffer[3] as usize];
            let mut starts = Vec::new();
            for record in records {
                starts.push(self.record(&[record[3], record[4], record[5], 0, 0]));
                self.words(&record[9..slots]);
            }
            for (start, record) in starts.into_iter().zip(records) {
                let name = self.name(&record[..3], false);
                self.patch(start, name);
                let share = buffer[6] == 0 || self.falls(Trap::SharedInAnyBuffer);
                let remember = share || self.falls(Trap::RememberedInAnyBuffer);
                let kind = self.place_type(node, 0, [share, remember], &mut top, &mut members);
                self.patch(start + 16, kind);
                let default = self.default(&record[6..9]);
                self.patch(start + 20, default);
                node = self.end(node);
                variable += 1;
            }
        }
    }

    fn node(&self, node: usize) -> [u32; TYPE_WORDS] {
        std::array::from_fn(|field| self.held.words.types[node * TYPE_WORDS + field])
    }

    /// The node behind a type and all below it.
    fn end(&self, node: usize) -> usize {
        (0..self.node(node)[5]).fold(node + 1, |next, _| self.end(next))
    }

    /// Whether two types are equal: node for node, in all that is theirs.
    fn same_type(&self, a: usize, b: usize) -> bool {
        let nodes = self.end(a) - a;
        nodes == self.end(b) - b
            && (0..nodes).all(|index| self.same_node(self.node(a + index), self.node(b + index), index == 0))
    }

    fn same_node(&self, a: [u32; TYPE_WORDS], b: [u32; TYPE_WORDS], root: bool) -> bool {
        let text = |node: &[u32; TYPE_WORDS], at: usize| [node[at], node[at + 1], node[at + 2]];
        let same = |at: usize| self.held.text(&text(&a, at)) == self.held.text(&text(&b, at));
        a[..6] == b[..6]
            && (a[6..10] == b[6..10] || self.falls(Trap::EqualButExtraWords))
            && (same(10) || self.falls(Trap::EqualButName))
            && (!self.falls(Trap::EqualButElsewhere) || a[10..13] == b[10..13])
            && (root || same(13) || self.falls(Trap::EqualButMemberName))
            && (root || a[16] == b[16] || self.falls(Trap::EqualButMemberOffset))
            && (!root || a[16] == b[16] || !self.falls(Trap::RootsAsMembers))
    }

    /// `share` says whether the type is looked up in its pool, and whether it is remembered there; its members
    /// use the pool `below`.
    fn place_type(&mut self, node: usize, depth: usize, share: [bool; 2], pool: &mut Types, below: &mut Types) -> u32 {
        let words = self.node(node);
        if share[0] && (words[4] == 0 || self.falls(Trap::SharedArrays)) {
            let pool = match self.trap {
                Some(Trap::OneTypePool) => &self.types,
                Some(Trap::DeeperInOnePool) if depth > 0 => &self.members,
                _ => &*pool,
            };
            if let Some((_, offset)) = pool.iter().find(|(other, _)| self.same_type(*other, node)) {
                return *offset;
            }
        }
        let named = words[12] > 0 || self.falls(Trap::EmptyTypeNames) && self.held.is_major_5();
        let name = if named { self.name(&words[10..13], false) } else { 0 };
        let mut records = Vec::new();
        let (mut next, mut deeper) = (node + 1, Types::new());
        for _ in 0..words[5] {
            let member = self.node(next);
            let member_name = self.name(&member[13..16], false);
            if !self.falls(Trap::DeeperByType) {
                deeper.clear();
            }
            let kind = self.place_type(next, depth + 1, [true; 2], below, &mut deeper);
            records.extend([member_name, kind, member[16]]);
            next = self.end(next);
        }
        let members = if records.is_empty() { 0 } else { self.pad() };
        self.words(&records);
        let offset = self.pad();
        self.words(&[words[0] | words[1] << 16, words[2] | words[3] << 16, words[4] | words[5] << 16, members]);
        if self.held.is_major_5() {
            self.words(&words[6..10]);
            self.words(&[name]);
        }
        if share[1] {
            pool.push((node, offset));
            self.types.push((node, offset));
            if depth > 0 {
                self.members.push((node, offset));
            }
        }
        offset
    }
}
