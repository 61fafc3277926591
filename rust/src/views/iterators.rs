//! Iterators over bindings, buffers, variables and members.

use super::{At, CBufferDef, CBufferVariable, MemberDesc, ResourceBinding, TypeDesc, BINDINGS, BUFFERS, TYPES};
use crate::layout::node;
use crate::ResourceDef;

/// The number of the node after the tree that begins at this one.
fn after_tree(def: &ResourceDef<'_>, root: usize) -> usize {
    let (mut next, mut left) = (root, 1);
    while left > 0 {
        left += def.record(TYPES, next)[node::MEMBER_COUNT] as usize;
        left -= 1;
        next += 1;
    }
    next
}

/// Bindings in their order.
#[derive(Clone, Debug)]
pub struct Bindings<'r> {
    def: &'r ResourceDef<'r>,
    next: usize,
    end: usize,
}

impl<'r> Bindings<'r> {
    pub(crate) fn new(def: &'r ResourceDef<'_>) -> Bindings<'r> {
        Bindings { def, next: 0, end: def.count(BINDINGS) }
    }
}

impl<'r> Iterator for Bindings<'r> {
    type Item = ResourceBinding<'r>;

    fn next(&mut self) -> Option<ResourceBinding<'r>> {
        (self.next < self.end).then(|| {
            let at = At { def: self.def, index: self.next };
            self.next += 1;
            ResourceBinding::new(at)
        })
    }

    fn size_hint(&self) -> (usize, Option<usize>) {
        (self.end - self.next, Some(self.end - self.next))
    }
}

/// Constant buffers in their order.
#[derive(Clone, Debug)]
pub struct ConstantBuffers<'r> {
    def: &'r ResourceDef<'r>,
    next: usize,
    end: usize,
    /// The next buffer's first variable and that variable's node.
    first: (usize, usize),
}

impl<'r> ConstantBuffers<'r> {
    pub(crate) fn new(def: &'r ResourceDef<'_>) -> ConstantBuffers<'r> {
        ConstantBuffers { def, next: 0, end: def.count(BUFFERS), first: (0, 0) }
    }
}

impl<'r> Iterator for ConstantBuffers<'r> {
    type Item = CBufferDef<'r>;

    fn next(&mut self) -> Option<CBufferDef<'r>> {
        (self.next < self.end).then(|| {
            let buffer = CBufferDef::new(At { def: self.def, index: self.next }, self.first);
            self.next += 1;
            let Variables { next, end, node, .. } = buffer.variables();
            self.first = (end, (next..end).fold(node, |node, _| after_tree(self.def, node)));
            buffer
        })
    }

    fn size_hint(&self) -> (usize, Option<usize>) {
        (self.end - self.next, Some(self.end - self.next))
    }
}

/// Variables of a buffer in their order.
#[derive(Clone, Debug)]
pub struct Variables<'r> {
    pub(super) def: &'r ResourceDef<'r>,
    pub(super) next: usize,
    pub(super) end: usize,
    /// The next variable's node.
    pub(super) node: usize,
}

impl<'r> Iterator for Variables<'r> {
    type Item = CBufferVariable<'r>;

    fn next(&mut self) -> Option<CBufferVariable<'r>> {
        (self.next < self.end).then(|| {
            let variable = CBufferVariable::new(At { def: self.def, index: self.next }, self.node);
            self.next += 1;
            self.node = after_tree(self.def, self.node);
            variable
        })
    }

    fn size_hint(&self) -> (usize, Option<usize>) {
        (self.end - self.next, Some(self.end - self.next))
    }
}

/// Members of a struct in their order.
#[derive(Clone, Debug)]
pub struct Members<'r> {
    pub(super) def: &'r ResourceDef<'r>,
    pub(super) left: usize,
    /// The next member's node.
    pub(super) node: usize,
}

impl<'r> Iterator for Members<'r> {
    type Item = MemberDesc<'r>;

    fn next(&mut self) -> Option<MemberDesc<'r>> {
        (self.left > 0).then(|| {
            let at = At { def: self.def, index: self.node };
            let w = at.words(TYPES);
            self.left -= 1;
            self.node = after_tree(self.def, self.node);
            MemberDesc {
                name: at.text(&w[node::MEMBER_NAME..]),
                member_type: TypeDesc::new(at),
                offset: w[node::MEMBER_OFFSET],
            }
        })
    }

    fn size_hint(&self) -> (usize, Option<usize>) {
        (self.left, Some(self.left))
    }
}

impl ExactSizeIterator for Bindings<'_> {}
impl ExactSizeIterator for ConstantBuffers<'_> {}
impl ExactSizeIterator for Variables<'_> {}
impl ExactSizeIterator for Members<'_> {}
