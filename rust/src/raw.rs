//! The linked functions behind safe signatures: slices of bytes and words, and an answer that is 0 or a refusal's number.
//!
//! Each function is total and says in `include/nontrefalcu.h` what it leaves in what it is lent. Nothing is asked of a caller.

/// Declares a linked function and its safe signature: numbers, then slices that are read, then slices that are written.
macro_rules! linked {
    ($(#[$about:meta])* $name:ident is $symbol:ident($($number:ident: u32),*)
     reads($($read:ident: $of:ty),*) writes($($written:ident: $to:ty),*)) => {
        $(#[$about])*
        #[inline]
        #[allow(clippy::too_many_arguments)]
        #[must_use]
        pub fn $name($($number: u32,)* $($read: &[$of],)* $($written: &mut [$to],)*) -> u32 {
            extern "C" {
                fn $symbol($(_: number!($number),)* $(_: *const $of, _: usize,)* $(_: *mut $to, _: usize,)*) -> u32;
            }
            // SAFETY: the library is linked by build.rs, and the declaration is that of include/nontrefalcu.h. Each pointer goes with the length of
            // its own slice, and the borrows last over the call and keep what is written apart from all else. The function is proved to read and
            // write only inside these slices, whatever they hold, and to return.
            unsafe { $symbol($($number,)* $($read.as_ptr(), $read.len(),)* $($written.as_mut_ptr(), $written.len(),)*) }
        }
    };
}

/// The type of a number's parameter.
macro_rules! number {
    ($number:ident) => {
        u32
    };
}

linked! {
    /// Reads a chunk into a header of 12 words and four tables.
    parse_rdef is nontrefalcu_parse_rdef() reads(chunk: u8)
    writes(header: u32, bindings: u32, buffers: u32, variables: u32, types: u32)
}

linked! {
    /// Writes the canonical form of a reflection; its length is the first word of `length`.
    write_canonical is nontrefalcu_write_canonical()
    reads(chunk: u8, edits: u8, header: u32, bindings: u32, buffers: u32, variables: u32, types: u32)
    writes(scratch: u32, out: u8, length: u32)
}

linked! {
    /// Writes the payload of a reflection: `answer` has 0 for the chunk itself or 1 for the output, and how many bytes.
    write_payload is nontrefalcu_write_payload()
    reads(chunk: u8, edits: u8, header: u32, bindings: u32, buffers: u32, variables: u32, types: u32)
    writes(found_bindings: u32, found_buffers: u32, found_variables: u32, found_types: u32, scratch: u32, out: u8, answer: u32)
}

linked! {
    /// The line of a binding, given by its 12 words.
    list_binding is nontrefalcu_list_binding() reads(chunk: u8, edits: u8, binding: u32) writes(out: u8, length: u32)
}

linked! {
    /// The spelling of a type, given by the 17 words of its node.
    type_name is nontrefalcu_type_name() reads(chunk: u8, edits: u8, node: u32) writes(out: u8, length: u32)
}

linked! {
    /// The declaration of a variable, given by the 17 words of its type's node and its own 13.
    declaration is nontrefalcu_declaration() reads(chunk: u8, edits: u8, node: u32, variable: u32) writes(out: u8, length: u32)
}

linked! {
    /// Reads a spelling: class, base, rows, columns and elements.
    parse_type is nontrefalcu_parse_type() reads(text: u8) writes(numbers: u32)
}

linked! {
    /// The sentence of a refusal's number; the empty text for a number that is none.
    refusal_text is nontrefalcu_refusal_text(number: u32) reads() writes(out: u8, length: u32)
}
