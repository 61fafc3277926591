//! The traps on the road of canonical writing: what is easily done otherwise than document 01 says.

#[derive(Clone, Copy, PartialEq, Eq, Debug)]
pub enum Trap {
    /// One string pool for all names.
    OneStringPool,
    /// Names or defaults that count by where they lie.
    NamesByPlace,
    DefaultsByPlace,
    /// Empty names that are not written; empty type names that are.
    EmptyNames,
    EmptyTypeNames,
    /// A creator that is always written.
    FreshCreator,
    /// Array types that are shared.
    SharedArrays,
    /// Top-level types that are shared in buffers whose type is not 0, or that are not looked up but remembered.
    SharedInAnyBuffer,
    RememberedInAnyBuffer,
    /// Top-level types and members of them in one pool.
    OneTypePool,
    /// Members of members in the chunk's pool, or in one for all members of a type.
    DeeperInOnePool,
    DeeperByType,
    /// Types that are equal but for this.
    EqualButElsewhere,
    EqualButExtraWords,
    EqualButName,
    EqualButMemberName,
    EqualButMemberOffset,
    /// Types that are told apart by what a root would be as a member.
    RootsAsMembers,
    /// Defaults that are written each time, with padding before one that is shared, or without padding.
    FreshDefaults,
    PaddedSharedDefaults,
    UnpaddedDefaults,
    /// Padding before buffers where there are none, and none before variables where there are none.
    PaddedWithoutBuffers,
    UnpaddedWithoutVariables,
    /// The buffer offset where there are no buffers.
    OffsetWithoutBuffers,
}

pub const TRAPS: [Trap; 24] = [
    Trap::OneStringPool,
    Trap::NamesByPlace,
    Trap::DefaultsByPlace,
    Trap::EmptyNames,
    Trap::EmptyTypeNames,
    Trap::FreshCreator,
    Trap::SharedArrays,
    Trap::SharedInAnyBuffer,
    Trap::RememberedInAnyBuffer,
    Trap::OneTypePool,
    Trap::DeeperInOnePool,
    Trap::DeeperByType,
    Trap::EqualButElsewhere,
    Trap::EqualButExtraWords,
    Trap::EqualButName,
    Trap::EqualButMemberName,
    Trap::EqualButMemberOffset,
    Trap::RootsAsMembers,
    Trap::FreshDefaults,
    Trap::PaddedSharedDefaults,
    Trap::UnpaddedDefaults,
    Trap::PaddedWithoutBuffers,
    Trap::UnpaddedWithoutVariables,
    Trap::OffsetWithoutBuffers,
];
