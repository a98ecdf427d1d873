// Written by bindings/erase from crates/vm_saved_trees/src/span.rt: do not edit.

//! The span of a subtree that was read. It is kept, and the subtree is not.
//!
//! A node can be checked if its block and the spans of its children are known. So no tree is needed
//! to decide whether a saved tree is valid.

use crate::proved::vm_ranges::{NodeState, RangeInclusive, SPLIT_LIMIT};

/// The maximum nesting of nodes. No tree of vm-allocator is higher.
pub(in crate::proved::vm_saved_trees) const MAX_NESTING: u64 = 50;

/// The maximum height of a tree that is read node for node.
pub(in crate::proved::vm_saved_trees) const MAX_HEIGHT: u64 = 49;

/// Which saved trees are accepted for a space.
#[derive(Clone, Copy)]
pub enum Form {
    /// The trees of an allocator of the space, node for node.
    Strict,
    /// The trees whose allocated keys can be held in the space. All else can be wrong.
    Repaired,
}

/// A subtree of a saved tree that was read, without its nodes.
///
/// Its keys are in ascending order and share no address, no allocated key ends at `u64::MAX`, and
/// its nodes are nested at most 50 deep.
#[derive(Clone, Copy)]
pub(in crate::proved::vm_saved_trees) struct Span {
    /// The start of the first key.
    first: u64,
    /// The end of the last key.
    last: u64,
    /// The number of its levels.
    nesting: u64,
    /// The number of its allocated keys.
    held: u64,
    /// The state of the first block.
    first_state: NodeState,
    /// The state of the last block.
    last_state: NodeState,
    /// Whether it can be a subtree of an allocator: its heights are correct, it is balanced, and it
    /// has no gaps between keys and no free neighbours.
    is_exact: bool,
}

/// Returns the span of a node. Returns `None` in these cases:
/// - The keys are not in ascending order, or share an address.
/// - The key is allocated and ends at `u64::MAX`.
/// - Nodes are nested more than 50 deep.
pub(in crate::proved::vm_saved_trees) fn span_over(
    left: &Option<Span>,
    key: &RangeInclusive,
    state: NodeState,
    right: &Option<Span>,
    height: u64,
) -> Option<Span> {
    let (first, first_state) = first_of(left, key, state);
    if !can_join(left, key, state, right) {
        return None;
    }
    let (last, last_state) = last_of(right, key, state);
    Some(Span {
        first,
        last,
        nesting: nesting_of(left).max(nesting_of(right)) + 1,
        held: held_over(left, state, right),
        first_state,
        last_state,
        is_exact: is_exact_over(left, key, state, right, height),
    })
}

/// Returns the start and the state of the first block of a node.
fn first_of(left: &Option<Span>, key: &RangeInclusive, state: NodeState) -> (u64, NodeState) {
    let start = key.start();
    match left {
        None => (start, state),
        Some(left) => (left.first, left.first_state),
    }
}

/// Returns the end and the state of the last block of a node.
fn last_of(right: &Option<Span>, key: &RangeInclusive, state: NodeState) -> (u64, NodeState) {
    match right {
        None => (key.end(), state),
        Some(right) => (right.last, right.last_state),
    }
}

/// Returns `true` if a node can have these children.
fn can_join(
    left: &Option<Span>,
    key: &RangeInclusive,
    state: NodeState,
    right: &Option<Span>,
) -> bool {
    (state == NodeState::Free || key.end() < u64::MAX)
        && nesting_of(left).max(nesting_of(right)) < MAX_NESTING
        && ends_below(left, key.start())
        && starts_above(right, key.end())
}

/// Returns the number of levels of a subtree.
pub(in crate::proved::vm_saved_trees) fn nesting_of(span: &Option<Span>) -> u64 {
    match span {
        None => 0,
        Some(span) => span.nesting,
    }
}

/// Returns the number of allocated keys of a subtree.
pub(in crate::proved::vm_saved_trees) fn held_in(span: &Option<Span>) -> u64 {
    match span {
        None => 0,
        Some(span) => span.held,
    }
}

/// Returns the number of allocated keys of a node.
fn held_over(left: &Option<Span>, state: NodeState, right: &Option<Span>) -> u64 {
    let below = held_in(left).saturating_add(held_in(right));
    match state {
        NodeState::Free => below,
        NodeState::Allocated => below.saturating_add(1),
    }
}

/// Returns `true` if the last key ends below an address, or if there is none.
fn ends_below(span: &Option<Span>, address: u64) -> bool {
    match span {
        None => true,
        Some(span) => span.last < address,
    }
}

/// Returns `true` if the first key starts above an address, or if there is none.
fn starts_above(span: &Option<Span>, address: u64) -> bool {
    match span {
        None => true,
        Some(span) => address < span.first,
    }
}

/// Returns `true` if a node can be one of an allocator.
fn is_exact_over(
    left: &Option<Span>,
    key: &RangeInclusive,
    state: NodeState,
    right: &Option<Span>,
    height: u64,
) -> bool {
    let (low, high) = (nesting_of(left), nesting_of(right));
    joins_left(left, key, state)
        && joins_right(right, key, state)
        && low <= high + 1
        && high <= low + 1
        && height == low.max(high) + 1
}

/// Returns `true` if a subtree of an allocator can be right before a block.
fn joins_left(span: &Option<Span>, key: &RangeInclusive, state: NodeState) -> bool {
    match span {
        None => true,
        Some(span) => {
            span.is_exact
                && u128::from(span.last) + 1 == u128::from(key.start())
                && !(span.last_state == NodeState::Free && state == NodeState::Free)
        }
    }
}

/// Returns `true` if a subtree of an allocator can be right after a block.
fn joins_right(span: &Option<Span>, key: &RangeInclusive, state: NodeState) -> bool {
    match span {
        None => true,
        Some(span) => {
            span.is_exact
                && u128::from(key.end()) + 1 == u128::from(span.first)
                && !(state == NodeState::Free && span.first_state == NodeState::Free)
        }
    }
}

/// Returns `true` if a saved tree is accepted for a space.
pub(in crate::proved::vm_saved_trees) fn is_accepted(
    form: Form,
    space: &RangeInclusive,
    root: &Option<Span>,
) -> bool {
    match form {
        Form::Strict => is_tree_of(space, root),
        Form::Repaired => is_inside(space, root),
    }
}

/// Returns `true` if all keys are in the space, and not too many are allocated.
fn is_inside(space: &RangeInclusive, root: &Option<Span>) -> bool {
    let (start, end) = (space.start(), space.end());
    match root {
        None => true,
        Some(root) => start <= root.first && root.last <= end && root.held <= SPLIT_LIMIT,
    }
}

/// Returns `true` if this is a tree of an allocator, and its keys cover the space.
fn is_tree_of(space: &RangeInclusive, root: &Option<Span>) -> bool {
    match root {
        None => false,
        Some(root) => {
            root.is_exact
                && root.nesting <= MAX_HEIGHT
                && root.first == space.start()
                && root.last == space.end()
        }
    }
}
