// SPDX-License-Identifier: Apache-2.0 OR BSD-3-Clause
//! Reads objects with serde. Fields can come in any order, and are checked as they come.

use super::conditions::field_and_text;
use super::{Map, ValuedRange};
use crate::convert::list_error;
use crate::proved::vm_addresses::{AddressAllocator, RangeInclusive, ReadNodes, SavedError, Side};
use crate::proved::vm_devices::{DeviceManager, DeviceSlot, ReadDevices};
use crate::proved::vm_ids::{IdAllocator, ReadIds};
use crate::proved::vm_range_map::{RangeMap, RefusedList, ValuedList};
use crate::rattle::Global;
use crate::{Conflict, ListError, NodeState, TryError};
use core::{fmt, mem};
use serde::de::{DeserializeSeed, Error, MapAccess, SeqAccess, Visitor};
use serde::{Deserialize, Deserializer};

/// Returns the error of a format.
#[cold]
fn invalid<E: Error>(error: SavedError) -> E {
    match error {
        SavedError::Violated(condition) => E::custom(field_and_text(condition).1.to_string_lossy()),
        SavedError::OutOfMemory => E::custom(TryError::OutOfMemory),
    }
}

#[derive(Deserialize)]
#[serde(rename = "RangeInclusive", deny_unknown_fields)]
struct Range {
    start: u64,
    end: u64,
}

impl<'de> Deserialize<'de> for RangeInclusive {
    fn deserialize<D: Deserializer<'de>>(from: D) -> Result<Self, D::Error> {
        let Range { start, end } = Range::deserialize(from)?;
        RangeInclusive::new(start, end).map_err(D::Error::custom)
    }
}

#[derive(Deserialize)]
#[serde(rename = "AddressAllocator", deny_unknown_fields)]
struct Space {
    address_space: RangeInclusive,
    interval_tree: Tree,
}

#[derive(Deserialize)]
#[serde(rename = "IntervalTree", deny_unknown_fields)]
struct Tree {
    #[serde(deserialize_with = "root")]
    root: ReadNodes,
}

fn root<'de, D: Deserializer<'de>>(from: D) -> Result<ReadNodes, D::Error> {
    let mut nodes = ReadNodes::new(Global);
    // The root ends as a left child.
    Subtree(&mut nodes, Side::Left).deserialize(from)?;
    Ok(nodes)
}

impl Space {
    /// Returns the allocator that `made` makes of the space and the nodes.
    fn allocator<E: Error>(
        self,
        made: impl FnOnce(Global, RangeInclusive, &ReadNodes) -> Result<AddressAllocator, SavedError>,
    ) -> Result<AddressAllocator, E> {
        made(Global, self.address_space, &self.interval_tree.root).map_err(invalid)
    }
}

impl<'de> Deserialize<'de> for crate::AddressAllocator {
    fn deserialize<D: Deserializer<'de>>(from: D) -> Result<Self, D::Error> {
        let allocator = Space::deserialize(from)?.allocator(AddressAllocator::from_nodes_repaired);
        allocator.map(crate::AddressAllocator)
    }
}

impl<'de> Deserialize<'de> for crate::Strict<crate::AddressAllocator> {
    fn deserialize<D: Deserializer<'de>>(from: D) -> Result<Self, D::Error> {
        let allocator = Space::deserialize(from)?.allocator(AddressAllocator::from_nodes)?;
        Ok(crate::AddressAllocator(allocator).into())
    }
}

impl<'de> Deserialize<'de> for crate::Constraint {
    fn deserialize<D: Deserializer<'de>>(from: D) -> Result<Self, D::Error> {
        let saved = Request::deserialize(from)?;
        let request = crate::Constraint::new(saved.size, saved.align, saved.policy);
        let request = request.map_err(D::Error::custom)?;
        Ok(crate::Constraint(match saved.window {
            Some(window) => request.0.within(window),
            None => request.0,
        }))
    }
}

#[derive(Deserialize)]
#[serde(rename = "Constraint", deny_unknown_fields)]
struct Request {
    size: u64,
    align: u64,
    policy: crate::AllocPolicy,
    window: Option<RangeInclusive>,
}

/// Reads a node with its children, or none, as the child on a side of the node around it.
struct Subtree<'a>(&'a mut ReadNodes, Side);

impl<'de> DeserializeSeed<'de> for Subtree<'_> {
    type Value = ();

    fn deserialize<D: Deserializer<'de>>(self, from: D) -> Result<(), D::Error> {
        from.deserialize_option(self)
    }
}

impl<'de> Visitor<'de> for Subtree<'_> {
    type Value = ();

    fn expecting(&self, f: &mut fmt::Formatter<'_>) -> fmt::Result {
        f.write_str("a node or none")
    }

    fn visit_none<E>(self) -> Result<(), E> {
        Ok(())
    }

    fn visit_unit<E>(self) -> Result<(), E> {
        Ok(())
    }

    fn visit_some<D: Deserializer<'de>>(self, from: D) -> Result<(), D::Error> {
        self.0.begin().map_err(invalid)?;
        from.deserialize_struct("InnerNode", FIELDS, InnerNode(self))
    }
}

/// The names of the fields of a node.
#[derive(Clone, Copy, Deserialize)]
#[serde(field_identifier, rename_all = "snake_case")]
enum Field {
    Key,
    NodeState,
    Left,
    Right,
    Height,
}

const FIELDS: &[&str] = &["key", "node_state", "left", "right", "height"];

/// The name of a node in errors of a format.
const NODE: &str = "struct InnerNode with 5 elements";

/// Returns the element of a sequence for a field, or the error if it is missing.
fn element<T, E: Error>(read: Option<T>, field: Field) -> Result<T, E> {
    read.ok_or_else(|| E::invalid_length(field as usize, &NODE))
}

/// Reads a node. A derive could not pass the other nodes on to its children.
struct InnerNode<'a>(Subtree<'a>);

impl<'de> Visitor<'de> for InnerNode<'_> {
    type Value = ();

    fn expecting(&self, f: &mut fmt::Formatter<'_>) -> fmt::Result {
        f.write_str(NODE)
    }

    fn visit_seq<A: SeqAccess<'de>>(self, mut from: A) -> Result<(), A::Error> {
        let InnerNode(Subtree(nodes, side)) = self;
        let key = element(from.next_element()?, Field::Key)?;
        let state: NodeState = element(from.next_element()?, Field::NodeState)?;
        let left = from.next_element_seed(Subtree(nodes, Side::Left))?;
        element(left, Field::Left)?;
        let right = from.next_element_seed(Subtree(nodes, Side::Right))?;
        element(right, Field::Right)?;
        let height = element(from.next_element()?, Field::Height)?;
        nodes.end(side, key, state, height).map_err(invalid)
    }

    fn visit_map<A: MapAccess<'de>>(self, mut from: A) -> Result<(), A::Error> {
        let InnerNode(Subtree(nodes, side)) = self;
        let (mut key, mut state, mut height) = (None, NodeState::Free, 0);
        let mut seen = [false; FIELDS.len()];
        while let Some(field) = from.next_key::<Field>()? {
            if mem::replace(&mut seen[field as usize], true) {
                return Err(A::Error::duplicate_field(FIELDS[field as usize]));
            }
            match field {
                Field::Key => key = Some(from.next_value()?),
                Field::NodeState => state = from.next_value()?,
                Field::Left => from.next_value_seed(Subtree(nodes, Side::Left))?,
                Field::Right => from.next_value_seed(Subtree(nodes, Side::Right))?,
                Field::Height => height = from.next_value()?,
            }
        }
        match (key, seen.iter().position(|seen| !seen)) {
            (Some(key), None) => nodes.end(side, key, state, height).map_err(invalid),
            (_, missing) => Err(A::Error::missing_field(FIELDS[missing.unwrap_or(0)])),
        }
    }
}

#[derive(Deserialize)]
#[serde(rename = "IdAllocator", deny_unknown_fields)]
struct Ids {
    range_base: u32,
    // Without a function, the field could be missing.
    #[serde(deserialize_with = "Deserialize::deserialize")]
    next_id: Option<u32>,
    range_end: u32,
    #[serde(deserialize_with = "freed_ids")]
    freed_ids: ReadIds,
}

fn freed_ids<'de, D: Deserializer<'de>>(from: D) -> Result<ReadIds, D::Error> {
    from.deserialize_seq(List(ReadIds::new(Global), ReadIds::push))
}

impl<'de> Deserialize<'de> for IdAllocator {
    fn deserialize<D: Deserializer<'de>>(from: D) -> Result<Self, D::Error> {
        let ids = Ids::deserialize(from)?;
        IdAllocator::from_ids(ids.range_base, ids.next_id, ids.range_end, ids.freed_ids)
            .map_err(invalid)
    }
}

#[derive(Deserialize)]
#[serde(rename = "DeviceManager", deny_unknown_fields)]
struct Devices {
    version: u64,
    id_allocator: IdAllocator,
    mmio_allocator: Space,
    #[serde(deserialize_with = "slots")]
    slots: ReadDevices,
}

fn slots<'de, D: Deserializer<'de>>(from: D) -> Result<ReadDevices, D::Error> {
    let push = |list: &mut ReadDevices, crate::DeviceSlot { id, range }| {
        let range = range.0;
        list.push(DeviceSlot { id, range })
    };
    from.deserialize_seq(List(ReadDevices::new(Global), push))
}

impl<'de> Deserialize<'de> for crate::DeviceManager {
    fn deserialize<D: Deserializer<'de>>(from: D) -> Result<Self, D::Error> {
        let saved = Devices::deserialize(from)?;
        let (version, ids, space) = (saved.version, saved.id_allocator, saved.mmio_allocator);
        let space = space.allocator(AddressAllocator::from_nodes)?;
        let made = DeviceManager::from_devices(Global, version, ids, space, &saved.slots);
        made.map(crate::DeviceManager).map_err(invalid)
    }
}

/// The ranges of a saved map with their values, as they were read.
struct ReadRanges<T>(ValuedList<RangeInclusive, T>);

impl<'de, T: Deserialize<'de>> Deserialize<'de> for ReadRanges<T> {
    fn deserialize<D: Deserializer<'de>>(from: D) -> Result<Self, D::Error> {
        let push = |list: &mut ValuedList<_, T>, ValuedRange { range, value }| {
            let pushed = list.push(range.0, value);
            pushed.map_err(|_| SavedError::OutOfMemory)
        };
        let list = ValuedList::with_capacity(Global, 0);
        let list = list.map_err(|_| invalid(SavedError::OutOfMemory))?;
        from.deserialize_seq(List(list, push)).map(ReadRanges)
    }
}

impl<'de, T: Deserialize<'de>> Deserialize<'de> for crate::RangeMap<T> {
    fn deserialize<D: Deserializer<'de>>(from: D) -> Result<Self, D::Error> {
        let Map { base, size, ranges } = Map::<ReadRanges<T>>::deserialize(from)?;
        let made = RangeMap::with_held(Global, base, size, ranges.0);
        made.map(crate::RangeMap)
            .map_err(|RefusedList { error, .. }| {
                let failure: ListError<TryError> = list_error(error, |_| None::<Conflict>);
                D::Error::custom(failure)
            })
    }
}

/// Reads the items of a list. The function adds an item.
struct List<L, T>(L, fn(&mut L, T) -> Result<(), SavedError>);

impl<'de, L, T: Deserialize<'de>> Visitor<'de> for List<L, T> {
    type Value = L;

    fn expecting(&self, f: &mut fmt::Formatter<'_>) -> fmt::Result {
        f.write_str("a list")
    }

    fn visit_seq<A: SeqAccess<'de>>(self, mut from: A) -> Result<L, A::Error> {
        let List(mut list, push) = self;
        while let Some(item) = from.next_element()? {
            push(&mut list, item).map_err(invalid)?;
        }
        Ok(list)
    }
}
