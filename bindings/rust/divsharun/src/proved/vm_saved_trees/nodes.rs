// Written by bindings/erase from crates/vm_saved_trees/src/nodes.rt: do not edit.

//! The nodes of a saved tree that were read so far.
//!
//! A reader calls `begin` before it reads the fields of a node, and `end` after that. It has no list
//! of nodes: a subtree is known by its span, and only the allocated keys of all subtrees are kept.

use crate::proved::vm_ranges::{Condition, NodeState, RangeInclusive, SavedError};
use crate::proved::vm_saved_trees::span::{
    held_in, is_accepted, span_over, Form, Span, MAX_NESTING,
};
use crate::rattle::Vec;
use crate::rattle::{AllocError, Global};

/// A side of a node, on which it can have a child.
#[derive(Clone, Copy, PartialEq, Eq)]
pub enum Side {
    /// The side of the lower keys.
    Left,
    /// The side of the higher keys.
    Right,
}

/// The spans of the children of a node that have ended.
#[derive(Clone, Copy)]
struct Children {
    left: Option<Span>,
    right: Option<Span>,
}

const CHILDLESS: Children = Children {
    left: None,
    right: None,
};

/// The nodes of a saved tree that were read so far, or the error of reading them.
pub struct ReadNodes {
    // The first error.
    failed: Option<SavedError>,
    // The allocated keys of all nodes that ended. Those of a node are in ascending order.
    held: Vec<RangeInclusive>,
    // The nodes that ended in no other one. The left one is the root.
    root: Children,
    // The children of the nodes that began and did not end, the outermost first.
    nested: Vec<Children>,
}

impl ReadNodes {
    /// Returns an empty list of nodes. It does not allocate.
    pub fn new(alloc: Global) -> Self {
        ReadNodes {
            failed: None,
            held: Vec::new(alloc),
            root: CHILDLESS,
            nested: Vec::new(alloc),
        }
    }

    /// Begins a node. It is nested in the nodes that began and did not end.
    ///
    /// So a reader that begins each node descends at most 51 levels.
    ///
    /// # Errors
    ///
    /// After an error, each call returns this error.
    /// - `Violated(Nesting)` if it is nested in 50 nodes.
    /// - `OutOfMemory` if an allocation fails.
    pub fn begin(&mut self) -> core::result::Result<(), SavedError> {
        if let Some(error) = self.failed {
            return Err(error);
        }
        if let Err(error) = nest(&mut self.nested) {
            self.failed = Some(error);
            return Err(error);
        }
        Ok(())
    }

    /// Ends the node that began last, as the child on this side of the node that it is nested in. The root
    /// ends as a left child.
    ///
    /// The children of the node are those that ended since it began, in any order.
    ///
    /// # Errors
    ///
    /// After an error, each call returns this error. In this order:
    /// - `Violated(Tree)` if no node began, or if a child on this side has ended before.
    /// - `Violated(Keys)` if one of these is true:
    ///   - The keys are not in ascending order, or share an address.
    ///   - The key is allocated and ends at `u64::MAX`.
    ///   - Nodes are nested more than 50 deep.
    /// - `OutOfMemory` if an allocation fails.
    pub fn end(
        &mut self,
        side: Side,
        key: RangeInclusive,
        state: NodeState,
        height: u64,
    ) -> core::result::Result<(), SavedError> {
        if let Some(error) = self.failed {
            return Err(error);
        }
        let (held, root, nested) = (&mut self.held, &mut self.root, &mut self.nested);
        if let Err(error) = end_in(held, root, nested, side, key, state, height) {
            self.failed = Some(error);
            return Err(error);
        }
        Ok(())
    }

    /// Returns the allocated keys in ascending order, if the nodes are one whole tree that is accepted for the
    /// space.
    ///
    /// # Errors
    ///
    /// In this order:
    /// - The error of reading the nodes.
    /// - `Violated(Tree)` if the tree is not accepted as a strict one, or `Violated(Inside)` if it is not
    ///   accepted as a repaired one.
    pub fn held_keys(
        &self,
        space: &RangeInclusive,
        form: Form,
    ) -> core::result::Result<&[RangeInclusive], SavedError> {
        if let Some(error) = self.failed {
            return Err(error);
        }
        let violated = SavedError::Violated(condition_of(form));
        let Some(root) = root_of(&self.nested, &self.root) else {
            return Err(violated);
        };
        if !is_accepted(form, space, &root) {
            return Err(violated);
        }
        Ok(&self.held)
    }
}

/// Adds a node that began, without children.
fn nest(nested: &mut Vec<Children>) -> core::result::Result<(), SavedError> {
    if nested.len() as u64 >= MAX_NESTING {
        return Err(SavedError::Violated(Condition::Nesting));
    }
    nested.push(CHILDLESS)?;
    Ok(())
}

/// Ends the innermost node, as a child of the node that it is nested in.
fn end_in(
    held: &mut Vec<RangeInclusive>,
    root: &mut Children,
    nested: &mut Vec<Children>,
    side: Side,
    key: RangeInclusive,
    state: NodeState,
    height: u64,
) -> core::result::Result<(), SavedError> {
    // The children are not moved out of the list, which would take longer.
    let Some((children, outer)) = nested.split_last() else {
        return Err(SavedError::Violated(Condition::Tree));
    };
    let parent = innermost(root, outer);
    if has_child(parent, side) {
        return Err(SavedError::Violated(Condition::Tree));
    }
    let Some(span) = span_over(&children.left, &key, state, &children.right, height) else {
        return Err(SavedError::Violated(Condition::Keys));
    };
    insert_key(held, held_in(&children.right), key, state)?;
    order_keys(held, held_in(&parent.right), held_in(&Some(span)));
    nested.pop();
    set_innermost(root, nested, side, span);
    Ok(())
}

/// Returns the last of `root` and these.
fn innermost<'a>(root: &'a Children, nested: &'a [Children]) -> &'a Children {
    match nested.last() {
        None => root,
        Some(children) => children,
    }
}

/// Sets the child on a side of the last of `root` and these.
fn set_innermost(root: &mut Children, nested: &mut [Children], side: Side, span: Span) {
    let count = nested.len();
    if count == 0 {
        return set_child(root, side, span);
    }
    set_child(&mut nested[count - 1], side, span)
}

/// Returns `true` if there is a child on this side.
fn has_child(children: &Children, side: Side) -> bool {
    match side {
        Side::Left => children.left.is_some(),
        Side::Right => children.right.is_some(),
    }
}

/// Sets the child on a side.
fn set_child(children: &mut Children, side: Side, span: Span) {
    match side {
        Side::Left => children.left = Some(span),
        Side::Right => children.right = Some(span),
    }
}

/// Inserts the key of a node, if it is allocated, before the last `after` keys.
fn insert_key(
    held: &mut Vec<RangeInclusive>,
    after: u64,
    key: RangeInclusive,
    state: NodeState,
) -> core::result::Result<(), AllocError> {
    if state == NodeState::Free {
        return Ok(());
    }
    let place = held.len().saturating_sub(after as usize);
    held.insert(place, key)?;
    Ok(())
}

/// Moves the last `count` keys before the `right` keys before them.
fn order_keys(held: &mut Vec<RangeInclusive>, right: u64, count: u64) {
    let moved = right.saturating_add(count) as usize;
    if right > 0 && moved <= held.len() {
        let first = held.len() - moved;
        held[first..].rotate_left(right as usize);
    }
}

/// Returns the span of the root, if there is no node that did not end.
fn root_of(outer: &[Children], children: &Children) -> Option<Option<Span>> {
    if outer.is_empty() && children.right.is_none() {
        return Some(children.left);
    }
    None
}

/// Returns the condition that a tree violates if it is not accepted.
fn condition_of(form: Form) -> Condition {
    match form {
        Form::Strict => Condition::Tree,
        Form::Repaired => Condition::Inside,
    }
}
