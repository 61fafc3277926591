//! A plain reader of RDEF chunks, written from document 01: its walk order, its refusal numbers 1 to 15
//! and its limits. It shares nothing with rdef.rs and reads for clearness, not for speed.

use crate::tables::{Answer, Rooms, Text, BINDING_WORDS, BUFFER_WORDS, TYPE_WORDS, VARIABLE_WORDS};
use crate::utf8::well_formed;

/// The words that the chunk reads as, or the number of the first fault met.
pub fn read(chunk: &[u8], rooms: &Rooms) -> Result<Answer, u32> {
    check(chunk.len() >= 28, 1)?;
    check(chunk.len() <= 65_536, 2)?;
    let [buffer_count, buffer_offset, binding_count, binding_offset, version, flags, creator] =
        std::array::from_fn(|index| word(chunk, 4 * index));
    let major = version >> 8 & 0xff;
    check(major == 4 || major == 5, 3)?;
    let creator = text(chunk, creator, 4)?;

    let mut rd11 = [0u32; 8];
    if major == 5 {
        check(chunk.len() >= 60, 5)?;
        rd11 = std::array::from_fn(|index| word(chunk, 28 + 4 * index));
        check(rd11[0] == 0x3131_4452 || rd11[0] == 0x2544_1313, 6)?;
        check(rd11[3] == 32 || rd11[3] == 40, 6)?;
        check([rd11[1], rd11[2], rd11[4], rd11[5], rd11[6]] == [60, 24, 40, 36, 12], 6)?;
    }

    let mut walk = Walk { chunk, rooms, major_5: major == 5, answer: Answer::default(), path: Vec::new() };
    let [_, place, length] = creator.words();
    walk.answer.header[..8].copy_from_slice(&[version, flags, 0, place, length, rd11[0], rd11[3], rd11[7]]);
    walk.bindings(binding_count, binding_offset, if rd11[3] == 40 { 40 } else { 32 })?;
    walk.buffers(buffer_count, buffer_offset)?;
    walk.answer.count_records();
    Ok(walk.answer)
}

fn check(holds: bool, number: u32) -> Result<(), u32> {
    if holds {
        Ok(())
    } else {
        Err(number)
    }
}

/// The little-endian word at a place that has been checked.
fn word(chunk: &[u8], at: usize) -> u32 {
    (0..4).fold(0, |sum, index| sum | u32::from(chunk[at + index]) << (8 * index))
}

/// The bytes up to the NUL, if the place is inside, a NUL follows and they are UTF-8.
fn text(chunk: &[u8], offset: u32, number: u32) -> Result<Text, u32> {
    let tail = chunk.get(offset as usize..).ok_or(number)?;
    let length = tail.iter().position(|&byte| byte == 0).ok_or(number)?;
    check(well_formed(&tail[..length]), number)?;
    Ok(Text { place: offset, length: length as u32 })
}

struct Walk<'a> {
    chunk: &'a [u8],
    rooms: &'a Rooms,
    major_5: bool,
    answer: Answer,
    /// Offsets of the descriptors from the root down to the present one.
    path: Vec<u32>,
}

impl Walk<'_> {
    /// Record number `index` of an array, if it ends inside the chunk. Sums are of 64 bits: none wraps.
    fn record(&self, offset: u32, index: u32, size: u64) -> Result<usize, u32> {
        let start = u64::from(offset) + u64::from(index) * size;
        check(start + size <= self.chunk.len() as u64, 7)?;
        Ok(start as usize)
    }

    fn word(&self, at: usize) -> u32 {
        word(self.chunk, at)
    }

    fn bindings(&mut self, count: u32, offset: u32, stride: u64) -> Result<(), u32> {
        for index in 0..count {
            check(self.answer.bindings.len() / BINDING_WORDS < self.rooms.bindings, 15)?;
            let at = self.record(offset, index, stride)?;
            let [name, rest @ ..]: [u32; 8] = std::array::from_fn(|field| self.word(at + 4 * field));
            check(rest[0] <= 13, 8)?;
            check(rest[2] <= 11, 9)?;
            check(rest[6] <= 0x1f, 10)?;
            let name = text(self.chunk, name, 11)?;
            let (space, id) = if stride == 40 { (self.word(at + 32), self.word(at + 36)) } else { (0, 0) };
            self.answer.bindings.extend(name.words());
            self.answer.bindings.extend(rest);
            self.answer.bindings.extend([space, id]);
        }
        Ok(())
    }

    fn buffers(&mut self, count: u32, offset: u32) -> Result<(), u32> {
        for index in 0..count {
            check(self.answer.buffers.len() / BUFFER_WORDS < self.rooms.buffers, 15)?;
            let at = self.record(offset, index, 24)?;
            let [name, count, variables, size, flags, kind] = std::array::from_fn(|field| self.word(at + 4 * field));
            self.variables(count, variables)?;
            let name = text(self.chunk, name, 11)?;
            self.answer.buffers.extend(name.words());
            self.answer.buffers.extend([count, size, flags, kind]);
        }
        Ok(())
    }

    fn variables(&mut self, count: u32, offset: u32) -> Result<(), u32> {
        for index in 0..count {
            check(self.answer.variables.len() / VARIABLE_WORDS < self.rooms.variables, 15)?;
            let at = self.record(offset, index, if self.major_5 { 40 } else { 24 })?;
            let [name, start, size, flags, kind, value] = std::array::from_fn(|field| self.word(at + 4 * field));
            let value = self.default_value(value, size)?;
            let name = text(self.chunk, name, 11)?;
            let slots = if self.major_5 { std::array::from_fn(|slot| self.word(at + 24 + 4 * slot)) } else { [0; 4] };
            self.answer.variables.extend(name.words());
            self.answer.variables.extend([start, size, flags]);
            self.answer.variables.extend(value.words());
            self.answer.variables.extend(slots);
            self.type_at(kind, Text::NONE, 0)?;
        }
        Ok(())
    }

    fn default_value(&self, offset: u32, size: u32) -> Result<Text, u32> {
        if offset == 0 {
            return Ok(Text::NONE);
        }
        check(u64::from(offset) + u64::from(size) <= self.chunk.len() as u64, 12)?;
        Ok(Text { place: offset, length: size })
    }

    /// One node and all below it. The node's record stands before its members'.
    fn type_at(&mut self, offset: u32, member_name: Text, member_offset: u32) -> Result<(), u32> {
        // The path holds the levels above: at the root none, so its length is the depth.
        check(self.path.len() <= 64, 13)?;
        check(!self.path.contains(&offset), 14)?;
        check(self.answer.types.len() / TYPE_WORDS < self.rooms.types, 15)?;
        let at = self.record(offset, 0, if self.major_5 { 36 } else { 16 })?;
        let halves = |word: u32| [word & 0xffff, word >> 16];
        let [class, var_type] = halves(self.word(at));
        let [rows, columns] = halves(self.word(at + 4));
        let [elements, member_count] = halves(self.word(at + 8));
        let members = self.word(at + 12);
        let extra = if self.major_5 { std::array::from_fn(|index| self.word(at + 16 + 4 * index)) } else { [0; 4] };

        let node = self.answer.types.len();
        self.answer.types.extend([class, var_type, rows, columns, elements, member_count]);
        self.answer.types.extend(extra);
        self.answer.types.extend(Text::NONE.words());
        self.answer.types.extend(member_name.words());
        self.answer.types.push(member_offset);

        self.path.push(offset);
        for index in 0..member_count {
            let member = self.record(members, index, 12)?;
            let name = text(self.chunk, self.word(member), 11)?;
            self.type_at(self.word(member + 4), name, self.word(member + 8))?;
        }
        self.path.pop();

        if self.major_5 && self.word(at + 32) != 0 {
            let name = text(self.chunk, self.word(at + 32), 11)?;
            self.answer.types[node + 10..node + 13].copy_from_slice(&name.words());
        }
        Ok(())
    }
}
