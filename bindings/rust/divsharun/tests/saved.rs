// SPDX-License-Identifier: Apache-2.0 OR BSD-3-Clause
//! Guards against saved objects that another version or `vm-allocator` cannot read, and against values
//! that are accepted although they are invalid.
//!
//! It checks the feature `serde` in JSON and in a format without names.

mod packed;
mod refusing;

use divsharun::{
    AddressAllocator, AllocPolicy, Constraint, DeviceManager, DeviceSlot, IdAllocator, NodeState,
    RangeInclusive, RangeMap, Saved, Strict, TryError,
};
use refusing::{peak_of, refusing};
use serde::de::value::{Error, MapDeserializer};
use serde::de::{DeserializeOwned, IntoDeserializer};
use serde::{Deserialize, Serialize};
use serde_json::Value;
use std::cell::Cell;
use std::collections::BTreeMap;
use std::fmt::Debug;
use std::hash::Hash;
use std::ops::DerefMut;

const FRESH: &str = concat!(
    r#"{"address_space":{"start":16,"end":19},"interval_tree":{"root":"#,
    r#"{"key":{"start":16,"end":19},"node_state":"Free","left":null,"right":null,"height":1}}}"#
);
const IDS: &str = r#"{"range_base":5,"next_id":12,"range_end":23,"freed_ids":[6,9]}"#;

/// Ids from 5 to 23, of which seven were allocated and 6 and 9 freed.
fn seven_ids() -> IdAllocator {
    let mut ids = IdAllocator::new(5, 23).unwrap();
    for id in 5..12 {
        assert_eq!(ids.allocate_id(), Ok(id));
    }
    ids.free_id(9).unwrap();
    ids.free_id(6).unwrap();
    ids
}

/// Returns a space at 4096 in which every third of `count` windows is freed.
fn windows(count: u64) -> AddressAllocator {
    let mut space = AddressAllocator::new(4096, 1 << 20).unwrap();
    let held: Vec<RangeInclusive> = (0..count)
        .map(|i| {
            space
                .allocate(16 << (i % 4), 16, AllocPolicy::FirstMatch)
                .unwrap()
        })
        .collect();
    held.iter()
        .step_by(3)
        .for_each(|range| space.free(range).unwrap());
    space
}

fn json<T: Serialize>(object: &T) -> String {
    serde_json::to_string(object).unwrap()
}

fn is_read<T: DeserializeOwned>(text: &str) -> bool {
    serde_json::from_str::<T>(text).is_ok()
}

/// Returns a space of `[16, 19]` whose tree has this root.
fn space_over(root: &str) -> String {
    format!(r#"{{"address_space":{{"start":16,"end":19}},"interval_tree":{{"root":{root}}}}}"#)
}

/// Returns a node with its children in JSON.
fn fork(left: &str, key: (u64, u64), state: &str, right: &str, height: u64) -> String {
    let (start, end) = key;
    let head = format!(r#""key":{{"start":{start},"end":{end}}},"node_state":"{state}""#);
    format!(r#"{{{head},"left":{left},"right":{right},"height":{height}}}"#)
}

/// Returns a node without a left child in JSON.
fn node(key: (u64, u64), state: &str, right: &str) -> String {
    fork("null", key, state, right, 1)
}

#[test]
fn json_has_the_fields_in_order() {
    assert_eq!(json(&AddressAllocator::new(16, 4).unwrap()), FRESH);
    // If the number of blocks is even, one more is before the root than after it.
    let mut space = AddressAllocator::new(16, 4).unwrap();
    for (start, root) in [
        (
            16,
            fork(
                &node((16, 16), "Allocated", "null"),
                (17, 19),
                "Free",
                "null",
                2,
            ),
        ),
        (18, {
            let low = fork(
                &node((16, 16), "Allocated", "null"),
                (17, 17),
                "Free",
                "null",
                2,
            );
            let high = node((19, 19), "Free", "null");
            fork(&low, (18, 18), "Allocated", &high, 3)
        }),
    ] {
        let policy = AllocPolicy::ExactMatch(start);
        space.allocate(1, 1, policy).unwrap();
        assert_eq!(json(&space), space_over(&root));
    }
    assert_eq!(json(&seven_ids()), IDS);
    assert_eq!(
        json(&RangeInclusive::new(2, 5).unwrap()),
        r#"{"start":2,"end":5}"#
    );
    assert_eq!(
        json(&[NodeState::Free, NodeState::Allocated]),
        r#"["Free","Allocated"]"#
    );
    let last = IdAllocator::new(u32::MAX, u32::MAX);
    let last = last
        .and_then(|mut ids| ids.allocate_id().map(|_| ids))
        .unwrap();
    assert!(json(&last).contains(r#""next_id":null"#));
}

#[test]
fn bytes_have_the_fields_in_order() {
    let mut expected = Vec::new();
    for address in [16u64, 19] {
        expected.extend(address.to_le_bytes());
    }
    expected.push(1);
    for address in [16u64, 19] {
        expected.extend(address.to_le_bytes());
    }
    expected.extend(0u32.to_le_bytes());
    expected.extend([0, 0]);
    expected.extend(1u64.to_le_bytes());
    let space = AddressAllocator::new(16, 4).unwrap();
    assert_eq!(packed::to_bytes(&space).unwrap(), expected);

    let mut expected = Vec::new();
    expected.extend(5u32.to_le_bytes());
    expected.push(1);
    expected.extend(12u32.to_le_bytes());
    expected.extend(23u32.to_le_bytes());
    expected.extend(2u64.to_le_bytes());
    expected.extend(6u32.to_le_bytes());
    expected.extend(9u32.to_le_bytes());
    assert_eq!(packed::to_bytes(&seven_ids()).unwrap(), expected);
}

/// Checks that these names of types, which some formats write or compare, are written and read.
fn expect_names<T: Serialize + DeserializeOwned>(value: &T, names: &[&str]) {
    let bytes = packed::to_bytes(value).unwrap();
    let written = packed::names_in(|| packed::to_bytes(value).unwrap());
    assert_eq!(written, names);
    let read = packed::names_in(|| packed::from_bytes::<T>(bytes).unwrap());
    assert_eq!(read, names);
}

#[test]
fn structures_have_the_names_of_the_derives() {
    let space = [
        "AddressAllocator",
        "RangeInclusive",
        "IntervalTree",
        "InnerNode",
        "RangeInclusive",
        "NodeState",
        "Allocated",
    ];
    let names = [
        &["DeviceManager", "IdAllocator"],
        &space[..],
        &["DeviceSlot", "RangeInclusive"],
    ]
    .concat();
    let mut devices = DeviceManager::new(0, 1, 16, 4).unwrap();
    devices.reserve(4, 4, AllocPolicy::FirstMatch).unwrap();
    expect_names(&devices, &names);
    let item = ["ValuedRange", "RangeInclusive"];
    expect_names(&two_values(), &[&["RangeMap"], &item[..], &item].concat());
    let request = Constraint::new(1, 1, AllocPolicy::LastMatch).unwrap();
    expect_names(
        &request.within(5..).unwrap(),
        &["Constraint", "AllocPolicy", "LastMatch", "RangeInclusive"],
    );
}

/// Returns the range of a map with these keys.
fn range_by<'a, K>(entries: &[(K, u64)]) -> Result<RangeInclusive, Error>
where
    K: IntoDeserializer<'a, Error> + Copy,
{
    RangeInclusive::deserialize(MapDeserializer::new(entries.iter().copied()))
}

#[test]
fn fields_are_known_by_number_name_and_bytes() {
    let range = Ok(RangeInclusive::new(16, 19).unwrap());
    assert_eq!(range_by(&[(0u64, 16), (1, 19)]), range);
    assert_eq!(range_by(&[(1u64, 19), (0, 16)]), range);
    for wrong in [2, 3, u64::MAX] {
        assert!(range_by(&[(0, 16), (wrong, 19)]).is_err(), "{wrong}");
        assert!(
            range_by(&[(0, 16), (1, 19), (wrong, 0)]).is_err(),
            "{wrong}"
        );
    }
    assert!(range_by(&[(0u64, 16)]).is_err());
    assert!(range_by(&[(0u64, 16), (0, 16), (1, 19)]).is_err());
    assert_eq!(range_by(&[("start", 16), ("end", 19)]), range);
    assert_eq!(range_by(&[(&b"start"[..], 16), (b"end", 19)]), range);
    for wrong in ["", "en", "ends", "END"] {
        assert!(range_by(&[("start", 16), (wrong, 19)]).is_err(), "{wrong}");
        assert!(
            range_by(&[(&b"start"[..], 16), (wrong.as_bytes(), 19)]).is_err(),
            "{wrong}"
        );
    }
}

#[test]
fn states_and_lists_of_fields_are_whole() {
    for place in 0..4u32 {
        let state: Result<NodeState, _> = packed::from_bytes(place.to_le_bytes());
        assert_eq!(state.is_ok(), place < 2, "{place}");
    }
    assert!(is_read::<NodeState>(r#"{"Free":null}"#));
    for wrong in [
        "0",
        "null",
        r#""""#,
        r#"{"Free":0}"#,
        r#"{"Free":[]}"#,
        r#"["Free"]"#,
    ] {
        assert!(!is_read::<NodeState>(wrong), "{wrong}");
    }
    assert!(is_read::<RangeInclusive>("[16,19]"));
    for wrong in ["[16]", "[16,19,20]", "[19,16]", "[]", "16"] {
        assert!(!is_read::<RangeInclusive>(wrong), "{wrong}");
    }
}

#[test]
fn written_values_are_read() {
    for count in [0, 1, 2, 10, 300] {
        let space = windows(count);
        let text: AddressAllocator = serde_json::from_str(&json(&space)).unwrap();
        let bytes: AddressAllocator =
            packed::from_bytes(packed::to_bytes(&space).unwrap()).unwrap();
        let value: AddressAllocator =
            serde_json::from_value(serde_json::to_value(&space).unwrap()).unwrap();
        assert!(text == space && bytes == space && value == space);
    }
    let ids: IdAllocator = serde_json::from_str(IDS).unwrap();
    assert_eq!(json(&ids), IDS);
    let ids: IdAllocator = packed::from_bytes(packed::to_bytes(&ids).unwrap()).unwrap();
    assert_eq!(json(&ids), IDS);
    for state in [NodeState::Free, NodeState::Allocated] {
        let pair = (state, RangeInclusive::new(1, 2).unwrap());
        let text: (NodeState, RangeInclusive) = serde_json::from_str(&json(&pair)).unwrap();
        let bytes: (NodeState, RangeInclusive) =
            packed::from_bytes(packed::to_bytes(&pair).unwrap()).unwrap();
        assert!(text == pair && bytes == pair);
    }
    let all = r#"{"range_base":0,"next_id":null,"range_end":4294967295,"freed_ids":[]}"#;
    let all: IdAllocator = serde_json::from_str(all).unwrap();
    assert_eq!(
        (all.held_count(), all.is_allocated(u32::MAX)),
        (1 << 32, true)
    );
    assert_eq!(
        (all.held_ids().len(), all.held_ids().next_back()),
        (1 << 32, Some(u32::MAX))
    );
    assert_eq!(all.held_ids().count(), 1 << 32);
    let most = r#"{"range_base":0,"next_id":null,"range_end":4294967295,"freed_ids":[1,2,9]}"#;
    let most: IdAllocator = serde_json::from_str(most).unwrap();
    let (mut ids, half) = (most.held_ids(), 1 << 31);
    assert_eq!(
        (ids.len(), ids.nth(half)),
        ((1 << 32) - 3, Some((1 << 31) + 3))
    );
    assert_eq!(
        (ids.len(), ids.nth_back(half - 6)),
        (half - 4, Some((1 << 31) + 5))
    );
    assert_eq!(
        (ids.next(), ids.nth(half), ids.next()),
        (Some((1 << 31) + 4), None, None)
    );
    assert_eq!(most.held_ids().nth_back((1 << 32) - 4), Some(0));
    assert_eq!(most.held_ids().nth_back(1 << 32), None);
    assert_eq!(most.held_ids().nth(1 << 32), None);
}

#[test]
fn policies_and_slots_have_the_form_of_derives() {
    let policies = [
        AllocPolicy::FirstMatch,
        AllocPolicy::LastMatch,
        AllocPolicy::ExactMatch(7),
    ];
    let text = r#"["FirstMatch","LastMatch",{"ExactMatch":7}]"#;
    assert_eq!(json(&policies), text);
    assert_eq!(
        serde_json::from_str::<Vec<AllocPolicy>>(text).unwrap(),
        policies
    );
    for wrong in [
        r#""ExactMatch""#,
        r#"{"FirstMatch":7}"#,
        r#""Next""#,
        r#"{"ExactMatch":-1}"#,
    ] {
        assert!(!is_read::<AllocPolicy>(wrong), "{wrong}");
    }
    let range = RangeInclusive::new(1, 2).unwrap();
    let slot = DeviceSlot { id: 5, range };
    let text = r#"{"id":5,"mmio_range":{"start":1,"end":2}}"#;
    assert_eq!(json(&slot), text);
    assert_eq!(serde_json::from_str::<DeviceSlot>(text).unwrap(), slot);
    for wrong in [
        r#"{"id":5,"mmio_range":{"start":2,"end":1}}"#,
        r#"{"id":5}"#,
        r#"{"id":5,"mmio_range":{"start":1,"end":2},"colour":1}"#,
    ] {
        assert!(!is_read::<DeviceSlot>(wrong), "{wrong}");
    }
}

/// Returns a manager with two devices, of which the second was unplugged.
fn manager() -> DeviceManager {
    let mut devices = DeviceManager::new(0, 1, 4096, 4096).unwrap();
    for size in [2048, 1024] {
        devices
            .reserve(size, size, AllocPolicy::FirstMatch)
            .unwrap();
    }
    devices.release(1).unwrap();
    devices
}

#[test]
fn managers_are_saved_with_their_devices() {
    let text = json(&manager());
    assert!(text.starts_with(r#"{"version":1,"id_allocator":{"range_base":0,"next_id":2,"#));
    assert!(text.ends_with(r#""slots":[{"id":0,"mmio_range":{"start":4096,"end":6143}}]}"#));
    let mut from_text: DeviceManager = serde_json::from_str(&text).unwrap();
    let bytes = packed::to_bytes(&manager()).unwrap();
    let from_bytes: DeviceManager = packed::from_bytes(bytes).unwrap();
    assert!(json(&from_text) == text && json(&from_bytes) == text);
    let slot = from_text.reserve(1, 1, AllocPolicy::FirstMatch).unwrap();
    assert_eq!((slot.id, slot.range.start()), (1, 6144));

    let changes = [
        (r#""version":1"#, r#""version":2"#),
        (r#""id":0"#, r#""id":1"#),
        (r#""end":6143}}]"#, r#""end":6142}}]"#),
        (
            r#""slots":[{"#,
            r#""slots":[{"id":0,"mmio_range":{"start":1,"end":1}},{"#,
        ),
        (r#"]}"#, r#"],"colour":1}"#),
    ];
    for (old, new) in changes {
        assert!(text.contains(old));
        assert!(!is_read::<DeviceManager>(&text.replace(old, new)), "{new}");
    }
}

/// Returns `true` if a manager is read whose space of `[16, 19]` has this root. Its device has the
/// range `[17, 17]`.
fn is_read_with(root: &str) -> bool {
    let ids = r#"{"range_base":0,"next_id":1,"range_end":1,"freed_ids":[]}"#;
    let slots = r#"[{"id":0,"mmio_range":{"start":17,"end":17}}]"#;
    let space = space_over(root);
    is_read::<DeviceManager>(&format!(
        r#"{{"version":1,"id_allocator":{ids},"mmio_allocator":{space},"slots":{slots}}}"#
    ))
}

#[test]
fn trees_of_managers_have_the_shape_of_the_proved_code() {
    let low = node((16, 16), "Free", "null");
    let high = node((18, 19), "Free", "null");
    assert!(is_read_with(&fork(&low, (17, 17), "Allocated", &high, 2)));
    // A wrong height, of a child and of the root.
    for height in [0, 2, u64::MAX] {
        let low = fork("null", (16, 16), "Free", "null", height);
        let root = fork(&low, (17, 17), "Allocated", &high, 2);
        assert!(!is_read_with(&root), "{height}");
    }
    for height in [0, 1, 3, u64::MAX] {
        let root = fork(&low, (17, 17), "Allocated", &high, height);
        assert!(!is_read_with(&root), "{height}");
    }
    // A gap.
    assert!(!is_read_with(&fork(&low, (17, 17), "Allocated", "null", 2)));
    assert!(!is_read_with(&fork(
        "null",
        (17, 17),
        "Allocated",
        &high,
        2
    )));
    // The children differ in height by 2.
    let upper = fork("null", (17, 17), "Allocated", &high, 2);
    assert!(!is_read_with(&fork("null", (16, 16), "Free", &upper, 3)));
    let lower = fork(&low, (17, 17), "Allocated", "null", 2);
    assert!(!is_read_with(&fork(&lower, (18, 19), "Free", "null", 3)));
    // Free neighbours.
    let [next, last] = [(18, 18), (19, 19)].map(|key| node(key, "Free", "null"));
    for two in [
        fork(&next, (19, 19), "Free", "null", 2),
        fork("null", (18, 18), "Free", &last, 2),
    ] {
        assert!(!is_read_with(&fork(&low, (17, 17), "Allocated", &two, 3)));
    }
}

#[test]
fn states_after_upstream_faults_are_repaired() {
    let fresh = AddressAllocator::new(16, 4).unwrap();
    let read = |root: &str| serde_json::from_str::<AddressAllocator>(&space_over(root));
    // The tree was lost.
    assert_eq!(read("null").unwrap(), fresh);
    // Free neighbours were not joined.
    let second = node((18, 19), "Free", "null");
    assert_eq!(read(&node((16, 17), "Free", &second)).unwrap(), fresh);
    // Heights and balance are not checked.
    let wrong_height = FRESH.replace(r#""height":1"#, r#""height":7"#);
    assert_eq!(
        serde_json::from_str::<AddressAllocator>(&wrong_height).unwrap(),
        fresh
    );
    // The freed nodes are missing.
    let held = read(&node((17, 17), "Allocated", "null")).unwrap();
    assert!(held
        .held_ranges()
        .eq([RangeInclusive::new(17, 17).unwrap()]));
    // Keys that overlap or are outside the space are not valid.
    assert!(read(&node((16, 20), "Allocated", "null")).is_err());
    let second = node((18, 19), "Allocated", "null");
    assert!(read(&node((16, 18), "Free", &second)).is_err());
}

#[test]
fn other_fields_are_refused() {
    assert!(is_read::<AddressAllocator>(FRESH) && is_read::<IdAllocator>(IDS));
    let changes = [
        (r#""height":1"#, r#""height":1,"colour":2"#),
        (r#","height":1"#, ""),
        (r#""height":1"#, r#""height":1,"height":1"#),
        (r#""height":1"#, r#""height":-1"#),
        (r#""height":1"#, r#""height":1.5"#),
        (r#""height":1"#, r#""height":"1""#),
        (r#""left":null,"#, ""),
        (r#""left":null"#, r#""left":[]"#),
        (r#""left":null"#, r#""left":{}"#),
        ("Free", "free"),
        (r#""Free""#, "0"),
        (r#""end":19"#, r#""end":15"#),
        (r#""end":19"#, r#""end":18446744073709551616"#),
    ];
    for (old, new) in changes {
        assert!(
            !is_read::<AddressAllocator>(&FRESH.replace(old, new)),
            "{new}"
        );
    }
    let changes = [
        (r#""next_id":12,"#, ""),
        ("12", "null"),
        ("12", "25"),
        ("[6,9]", "[9,6]"),
        ("[6,9]", "[6,6]"),
        ("[6,9]", "[6,12]"),
        ("[6,9]", "null"),
        ("23", "4294967296"),
        (r#""range_base""#, r#""base""#),
    ];
    for (old, new) in changes {
        assert!(!is_read::<IdAllocator>(&IDS.replace(old, new)), "{new}");
    }
    let no_next = r#"{"range_base":0,"range_end":4294967295,"freed_ids":[]}"#;
    assert!(!is_read::<IdAllocator>(no_next));
    assert!(!is_read::<AddressAllocator>(
        r#"{"address_space":{"start":16,"end":19},"interval_tree":{}}"#
    ));
    assert!(!is_read::<RangeInclusive>(
        r#"{"start":0,"end":18446744073709551615}"#
    ));
}

/// A tree whose root is a number.
struct WrongTree;

impl<'a> IntoDeserializer<'a, Error> for WrongTree {
    type Deserializer = MapDeserializer<'a, std::array::IntoIter<(&'static str, u64), 1>, Error>;

    fn into_deserializer(self) -> Self::Deserializer {
        MapDeserializer::new([("root", 5)].into_iter())
    }
}

/// Returns the text of the error of reading a text, without the place that JSON adds.
fn error_of<T: DeserializeOwned>(text: &str) -> String {
    let error = serde_json::from_str::<T>(text).map(|_| ()).unwrap_err();
    let error = error.to_string();
    error.split(" at line ").next().unwrap().to_string()
}

#[test]
fn errors_name_what_is_wrong() {
    const KEYS: &str =
        "the keys do not ascend or share an address, or an allocated key ends at u64::MAX";
    const INSIDE: &str =
        "a key is outside the space, or more than 6,293,134,512 keys are allocated";

    let fields = "expected one of `key`, `node_state`, `left`, `right`, `height`";
    let colour = format!("unknown field `colour`, {fields}");
    for (old, new, error) in [
        (r#""height":1"#, r#""height":1,"colour":2"#, &colour[..]),
        (
            r#""Free""#,
            r#""Clear""#,
            "unknown variant `Clear`, expected `Free` or `Allocated`",
        ),
        (
            r#""end":19},"node_state""#,
            r#""end":20},"node_state""#,
            INSIDE,
        ),
        (
            r#""end":19"#,
            r#""end":15"#,
            "The range specified: 16-15 is not valid.",
        ),
        (
            r#""left":null"#,
            r#""left":5"#,
            "invalid type: integer `5`, expected struct InnerNode with 5 elements",
        ),
    ] {
        assert_eq!(
            error_of::<AddressAllocator>(&FRESH.replace(old, new)),
            error
        );
    }
    let second = node((18, 19), "Free", "null");
    let last = node((16, u64::MAX), "Allocated", "null");
    let whole = fork(
        &node((0, 5), "Free", "null"),
        (6, u64::MAX),
        "Free",
        "null",
        2,
    );
    for (text, error) in [
        (space_over(&node((16, 18), "Free", &second)), KEYS),
        (space_over(&last), KEYS),
        (space_over(&whole), INSIDE),
        (chain(51), "nodes are nested more than 50 deep"),
    ] {
        assert_eq!(error_of::<AddressAllocator>(&text), error);
    }
    for (old, new, error) in [
        (
            "12",
            "25",
            "next_id is neither in the range nor right after it",
        ),
        ("23", "4", "range_base is past range_end"),
        (
            "[6,9]",
            "[6,12]",
            "a freed id is outside the range or not below next_id",
        ),
        ("[6,9]", "[9,6]", "the ids of a list do not ascend"),
        ("[6,9]", "null", "invalid type: null, expected a list"),
    ] {
        assert_eq!(error_of::<IdAllocator>(&IDS.replace(old, new)), error);
    }
    let devices = json(&manager());
    for (old, new, error) in [
        (r#""version":1"#, r#""version":2"#, "the version is not 1"),
        (
            r#""slots":[{"id":0"#,
            r#""slots":[{"id":1"#,
            "the devices do not pair the allocated ids with the allocated ranges",
        ),
        (
            r#""height":2"#,
            r#""height":3"#,
            "the tree is unbalanced, a height is wrong, or it has a gap or free neighbours",
        ),
    ] {
        assert_eq!(error_of::<DeviceManager>(&devices.replace(old, new)), error);
    }
    let space = MapDeserializer::new([("interval_tree", WrongTree)].into_iter());
    let error = AddressAllocator::deserialize(space).unwrap_err();
    let text = "invalid type: integer `5`, expected a node or none";
    assert_eq!(error.to_string(), text);
}

// DIFFERENCES.md: "Heights, keys and ids can be invalid, and fields unknown or missing | Fields must
// be exact, and keys and ids valid. Only strict readers check heights"

/// Returns wrong texts of a value, each with the start of its error. One field of an object is missing, twice
/// there or unknown, or a node is a list of some fields.
fn with_wrong_fields(value: &Value) -> Vec<(String, String)> {
    let (parts, brackets): (Vec<(String, &Value)>, _) = match value {
        Value::Object(fields) => {
            let fields = fields.iter();
            let named = fields.map(|(name, part)| (format!("{name:?}:"), part));
            (named.collect(), ["{", "}"])
        }
        Value::Array(items) => {
            let items = items.iter().map(|item| (String::new(), item));
            (items.collect(), ["[", "]"])
        }
        _ => return Vec::new(),
    };
    let texts: Vec<String> = parts
        .iter()
        .map(|(name, part)| format!("{name}{part}"))
        .collect();
    let whole = |texts: &[String]| brackets.join(&texts.join(","));
    let mut found = Vec::new();
    for (at, (name, part)) in parts.iter().enumerate() {
        for (text, error) in with_wrong_fields(part) {
            let mut texts = texts.clone();
            texts[at] = format!("{name}{text}");
            found.push((whole(&texts), error));
        }
        if value.is_object() {
            let field = name.replace('"', "`").replace(':', "");
            let mut others = texts.clone();
            others.remove(at);
            found.push((whole(&others), format!("missing field {field}")));
            let twice = [&texts[..], &texts[at..=at]].concat();
            found.push((whole(&twice), format!("duplicate field {field}")));
            let more = [&texts[..], &[r#""colour":1"#.to_string()]].concat();
            found.push((whole(&more), "unknown field `colour`".to_string()));
        }
    }
    if let Some(key) = value.get("key") {
        let fields = [
            key.to_string(),
            r#""Free""#.into(),
            "null".into(),
            "null".into(),
        ];
        for count in 0..=fields.len() {
            let list = format!("[{}]", fields[..count].join(","));
            let error =
                format!("invalid length {count}, expected struct InnerNode with 5 elements");
            found.push((list, error));
        }
    }
    found
}

#[test]
fn each_field_is_there_once() {
    let text = json(&manager());
    let wrong = with_wrong_fields(&serde_json::from_str(&text).unwrap());
    assert!(wrong.len() > 100);
    for (text, want) in wrong {
        let error = error_of::<DeviceManager>(&text);
        assert!(error.starts_with(&want), "{error}, and not {want}: {text}");
    }
}

/// Reads a space from a format that first keeps the parts of a value.
#[test]
fn values_are_read_after_they_are_kept() {
    #[derive(Deserialize)]
    #[serde(untagged)]
    enum Kept {
        Space(AddressAllocator),
    }
    let Kept::Space(space) = serde_json::from_str(&json(&windows(10))).unwrap();
    assert_eq!(space, windows(10));
}

/// Returns a chain of nodes, each the right child of the one before.
fn chain(length: u64) -> String {
    let text = (0..length).rev().fold("null".to_string(), |right, at| {
        node((at, at), "Allocated", &right)
    });
    format!(r#"{{"address_space":{{"start":0,"end":60}},"interval_tree":{{"root":{text}}}}}"#)
}

#[test]
fn fifty_levels_are_read_and_no_more() {
    let read: AddressAllocator = serde_json::from_str(&chain(50)).unwrap();
    assert_eq!(read.held_count(), 50);
    assert!(!is_read::<AddressAllocator>(&chain(51)));
}

/// An iterator over bytes that counts the bytes read.
fn counted<'a>(
    bytes: impl Iterator<Item = u8> + 'a,
    asked: &'a Cell<u64>,
) -> impl Iterator<Item = u8> + 'a {
    bytes.inspect(|_| asked.set(asked.get() + 1))
}

#[test]
fn nesting_without_end_is_refused_early() {
    let mut level = vec![1];
    level.extend([0; 16]);
    level.extend(1u32.to_le_bytes());
    let space = [[0; 8], 1000u64.to_le_bytes()].concat();
    let asked = Cell::new(0);
    let bytes = space.into_iter().chain(level.into_iter().cycle());
    assert!(packed::from_bytes::<AddressAllocator>(counted(bytes, &asked)).is_err());
    assert!(asked.get() < 51 * 21 + 17);
}

/// Returns the bytes of an id allocator that announces a number of freed ids and then has these
/// ids.
fn ids_freed(count: u64, ids: impl Iterator<Item = u32>) -> impl Iterator<Item = u8> {
    let mut head = [0u32.to_le_bytes().as_slice(), &[1], &[255; 4], &[255; 4]].concat();
    head.extend(count.to_le_bytes());
    head.into_iter().chain(ids.flat_map(u32::to_le_bytes))
}

#[test]
fn lists_are_refused_at_their_first_fault() {
    let count = 100_000_000;
    let asked = Cell::new(0);
    let bytes = ids_freed(count, std::iter::repeat(7));
    assert!(packed::from_bytes::<IdAllocator>(counted(bytes, &asked)).is_err());
    assert_eq!(asked.get(), 21 + 8);

    // The announced length allocates nothing. The first id allocates the first leaf of freed ids.
    asked.set(0);
    let bytes = counted(ids_freed(u64::MAX, 0..3), &asked);
    let (read, most) = peak_of(|| packed::from_bytes::<IdAllocator>(bytes).map(drop));
    assert!(read.is_err() && most < 1_000, "{most}");
    assert_eq!(asked.get(), 21 + 12);
}

#[test]
fn lists_have_any_length() {
    const LONG: u32 = (1 << 20) + 8;
    let mut ids = IdAllocator::new(0, LONG).unwrap();
    for id in 0..=LONG {
        assert_eq!(ids.allocate_id(), Ok(id));
    }
    for id in 1..=LONG {
        assert_eq!(ids.free_id(id), Ok(id));
    }
    let again: IdAllocator = packed::from_bytes(packed::to_bytes(&ids).unwrap()).unwrap();
    assert_eq!((again.held_count(), again.is_allocated(0)), (1, true));
    assert!(again == ids);
    let mut devices = DeviceManager::new(0, LONG, 0, 70_000).unwrap();
    let mut reserve = |_| devices.reserve(1, 1, AllocPolicy::FirstMatch).is_ok();
    assert!((0..70_000).all(&mut reserve));
    let again: DeviceManager = packed::from_bytes(packed::to_bytes(&devices).unwrap()).unwrap();
    assert!(again == devices);
}

/// Appends the bytes of a balanced tree in which the first of every `stride` addresses are allocated.
fn put_sparse(keys: std::ops::Range<u64>, stride: u64, bytes: &mut Vec<u8>) {
    let middle = keys.start + (keys.end - keys.start) / 2;
    bytes.push(u8::from(!keys.is_empty()));
    if !keys.is_empty() {
        bytes.extend([(middle * stride).to_le_bytes(); 2].concat());
        bytes.extend(1u32.to_le_bytes());
        put_sparse(keys.start..middle, stride, bytes);
        put_sparse(middle + 1..keys.end, stride, bytes);
        bytes.extend(u64::from((keys.end - keys.start).ilog2() + 1).to_le_bytes());
    }
}

/// Returns the bytes of a space with this number of allocated addresses.
fn sparse(count: u64, stride: u64) -> Vec<u8> {
    let mut bytes = [[0; 8], (count * stride - 1).to_le_bytes()].concat();
    put_sparse(0..count, stride, &mut bytes);
    bytes
}

/// Reads bytes, which must be accepted or not. Checks the memory that this allocates, for each byte
/// of the input.
fn costs<T: DeserializeOwned>(bytes: &[u8], is_accepted: bool, most: f64) {
    let read = || packed::from_bytes::<T>(bytes.iter().copied());
    let (read, peak) = peak_of(read);
    assert_eq!(read.is_ok(), is_accepted);
    let times = peak as f64 / bytes.len() as f64;
    assert!(times <= most, "{times} of {most}");
}

#[test]
fn hostile_bytes_cost_memory_of_their_length() {
    // A node has 30 bytes. Its range has 16 bytes in a list with an eighth more, and with the gap at most
    // 22 in the tree.
    let mut bytes = sparse(1 << 20, 2);
    costs::<AddressAllocator>(&bytes, true, 1.35);
    bytes.pop();
    costs::<AddressAllocator>(&bytes, false, 0.6);

    let mut bytes: Vec<u8> = ids_freed(1 << 20, 0..1 << 20).collect();
    costs::<IdAllocator>(&bytes, true, 1.2);
    bytes.pop();
    costs::<IdAllocator>(&bytes, false, 1.2);

    let count = 1 << 16;
    let mut bytes = [&1u64.to_le_bytes()[..], &[0; 4], &[1]].concat();
    bytes.extend(
        [count as u32, count as u32 - 1]
            .map(u32::to_le_bytes)
            .concat(),
    );
    bytes.extend(0u64.to_le_bytes());
    bytes.extend(sparse(count, 1));
    bytes.extend(count.to_le_bytes());
    for id in 0..count {
        bytes.extend((id as u32).to_le_bytes());
        bytes.extend([id.to_le_bytes(); 2].concat());
    }
    // A device has 50 bytes. It then has 24 in the list that is read, 24 and 16 in the maps of the manager,
    // and at most 18 in the tree.
    costs::<DeviceManager>(&bytes, true, 1.6);
    bytes.pop();
    costs::<DeviceManager>(&bytes, false, 1.0);
}

/// Checks that a device takes the same memory whatever its id. A freed id has 4 bytes.
#[test]
fn a_device_with_a_high_id_takes_few_bytes() {
    const LAST: u32 = 1000;
    let mut devices = DeviceManager::new(0, LAST, 0, 2000).unwrap();
    let mut reserve = |_| devices.reserve(1, 1, AllocPolicy::FirstMatch).is_ok();
    assert!((0..=LAST).all(&mut reserve));
    assert!((0..LAST).all(|id| devices.release(id) == Ok(())));
    let bytes = packed::to_bytes(&devices).unwrap();
    let (read, of_one) = peak_of(|| packed::from_bytes::<DeviceManager>(bytes));
    let mut read = read.unwrap();
    let (device, of_another) = peak_of(|| read.reserve(1, 1, AllocPolicy::FirstMatch));
    assert_eq!(device.map(|device| device.id), Ok(0));
    let (_, of_copy) = peak_of(|| read.clone());
    let bytes = [of_one, of_another, of_copy];
    assert!(
        of_one < 5_500 && of_another < 1_100 && of_copy < 5_500,
        "{bytes:?}"
    );
}

/// Fails each allocation of a call in turn. The call returns an error with the text of a failed
/// allocation, until no allocation is left to fail.
fn fails_each<T>(mut call: impl FnMut() -> Result<T, packed::Failure>) {
    for number in 1.. {
        let (result, requests) = refusing(number, || call().map(drop));
        if requests < number {
            assert!(result.is_ok() && number > 1);
            return;
        }
        let text = result.unwrap_err().to_string();
        assert_eq!(text, "There is not enough memory.");
    }
}

fn read_fails_each<T: DeserializeOwned>(bytes: &[u8]) {
    fails_each(|| packed::from_bytes::<T>(bytes.iter().copied()));
}

/// A space of four addresses, of which the second one is allocated.
fn second_held() -> AddressAllocator {
    let mut space = AddressAllocator::new(16, 4).unwrap();
    space.allocate(1, 1, AllocPolicy::ExactMatch(17)).unwrap();
    space
}

#[test]
fn failed_allocations_are_errors_of_the_format() {
    let (manager, space) = (manager(), second_held());
    read_fails_each::<DeviceManager>(&packed::to_bytes(&manager).unwrap());
    read_fails_each::<AddressAllocator>(&packed::to_bytes(&space).unwrap());
    read_fails_each::<RangeMap<u64>>(&packed::to_bytes(&two_values()).unwrap());
    read_fails_each::<Strict<AddressAllocator>>(&packed::to_bytes(&space).unwrap());
    read_fails_each::<IdAllocator>(&packed::to_bytes(&seven_ids()).unwrap());
    let mut bytes = Vec::with_capacity(10_000);
    fails_each(|| packed::to_bytes_in(&manager, &mut bytes));
    fails_each(|| packed::to_bytes_in(&space, &mut bytes));
}

#[test]
fn a_saved_view_is_written_without_an_allocation() {
    let (manager, space) = (manager(), second_held());
    let views = (manager.try_saved().unwrap(), space.try_saved().unwrap());
    assert_eq!(json(&views.0), json(&manager));
    assert_eq!(json(&views.1), json(&space));
    assert_eq!(format!("{:?}", views.1), format!("Saved({space:?})"));
    // A block has 16 bytes in the list.
    let large = windows(3000);
    let blocks = (large.held_count() + large.gap_count()) as usize;
    let ((view, bytes), requests) = refusing(0, || peak_of(|| large.try_saved()));
    assert!(view.is_ok() && (bytes, requests) == (16 * blocks, 1));
    let mut bytes = Vec::with_capacity(10_000);
    let (written, requests) = refusing(0, || {
        packed::to_bytes_in(&views.0, &mut bytes).and(packed::to_bytes_in(&views.1, &mut bytes))
    });
    assert!(written.is_ok() && requests == 0);
    for number in 1.. {
        let (view, requests) = refusing(number, || manager.try_saved().map(drop));
        if requests < number {
            assert!(view.is_ok() && number > 1);
            break;
        }
        assert_eq!(view, Err(TryError::OutOfMemory));
    }
}

#[test]
fn a_strict_read_accepts_balanced_trees_of_whole_blocks() {
    let space = second_held();
    let text = json(&space);
    assert_eq!(strict(&text).unwrap(), space);
    let other_height = text.replace(r#""height":2"#, r#""height":3"#);
    for cut in [
        space_over("null"),
        space_over(&node((17, 17), "Allocated", "null")),
        other_height,
    ] {
        assert!(serde_json::from_str::<AddressAllocator>(&cut).is_ok());
        let error = strict(&cut).unwrap_err().to_string();
        assert!(error.contains("unbalanced"), "{error}");
    }
    // The upper block is the root of the tree that is written, but either block can be the root.
    let mut space = AddressAllocator::new(16, 4).unwrap();
    space.allocate(1, 1, AllocPolicy::FirstMatch).unwrap();
    let [low, high] = [((16, 16), "Allocated"), ((17, 19), "Free")];
    let below = fork(&node(low.0, low.1, "null"), high.0, high.1, "null", 2);
    let above = fork("null", low.0, low.1, &node(high.0, high.1, "null"), 2);
    assert_eq!(json(&space), space_over(&below));
    assert_eq!(strict(&space_over(&above)).unwrap(), space);
}

fn strict(text: &str) -> serde_json::Result<AddressAllocator> {
    serde_json::from_str::<Strict<_>>(text).map(Strict::into_inner)
}

/// Names the types for serde with their traits.
#[test]
fn types_for_serde_have_their_traits() {
    fn values<T: Copy + Default + Ord + Hash + Debug + DerefMut + From<u64> + Serialize>() {}
    values::<Strict<u64>>();
    fn views<T: Debug + Serialize + Send + Sync>() {}
    views::<Saved<'_, AddressAllocator>>();
    views::<Saved<'_, DeviceManager>>();
    fn saved<T: Serialize + DeserializeOwned>() {}
    saved::<(
        RangeInclusive,
        NodeState,
        AllocPolicy,
        Constraint,
        DeviceSlot,
    )>();
    saved::<(
        IdAllocator,
        DeviceManager,
        RangeMap<u64>,
        Strict<AddressAllocator>,
    )>();
}

/// Checks that a missing subtree of 1000 ranges is an error for `Strict` wherever it is, and not without it.
#[test]
fn a_missing_subtree_is_an_error_anywhere() {
    type Map<T> = BTreeMap<String, T>;

    let mut space = Strict::from(AddressAllocator::new(0, 2000).unwrap());
    for at in 0..1000 {
        let policy = AllocPolicy::ExactMatch(2 * at);
        space.allocate(1, 1, policy).unwrap();
    }
    let whole = serde_json::to_value(&space).unwrap();
    assert_eq!(whole, serde_json::to_value(&*space).unwrap());
    let mut cut = whole.clone();
    cut["interval_tree"]["root"]["left"] = Value::Null;
    let lenient: AddressAllocator = serde_json::from_value(cut.clone()).unwrap();
    assert!(lenient.held_count() < 600);
    let known: Vec<_> = space.held_ranges().collect();
    let known = AddressAllocator::with_held(0, 2000, &known).unwrap();
    assert!(known == *space && known != lenient);

    let in_map = |value: &Value| serde_json::json!({ "mmio": value });
    let in_list = |value: &Value| serde_json::json!([whole, value]);
    let option: Option<Strict<_>> = serde_json::from_value(whole.clone()).unwrap();
    let list: Vec<Strict<_>> = serde_json::from_value(in_list(&whole)).unwrap();
    let map: Map<Strict<_>> = serde_json::from_value(in_map(&whole)).unwrap();
    assert!(option
        .iter()
        .chain(&list)
        .chain(map.values())
        .all(|read| *read == space));
    assert!(
        serde_json::from_value::<Option<Strict<AddressAllocator>>>(Value::Null)
            .unwrap()
            .is_none()
    );
    assert!(serde_json::from_value::<Option<Strict<AddressAllocator>>>(cut.clone()).is_err());
    assert!(serde_json::from_value::<Vec<Strict<AddressAllocator>>>(in_list(&cut)).is_err());
    assert!(serde_json::from_value::<Map<Strict<AddressAllocator>>>(in_map(&cut)).is_err());
    assert!(serde_json::from_value::<Map<AddressAllocator>>(in_map(&cut)).is_ok());

    let bytes = packed::to_bytes(&space).unwrap();
    assert_eq!(bytes, packed::to_bytes(&*space).unwrap());
    let read: Strict<AddressAllocator> = packed::from_bytes(bytes).unwrap();
    assert_eq!(read, space);
}

/// Checks that a saved request has its window, and that an invalid one is not read.
#[test]
fn requests_are_saved_with_their_windows() {
    let bar = Constraint::new(16, 16, AllocPolicy::ExactMatch(32)).unwrap();
    let whole = r#"{"size":16,"align":16,"policy":{"ExactMatch":32},"window":null}"#;
    let window = r#""window":{"start":16,"end":63}"#;
    let limited = whole.replace(r#""window":null"#, window);
    for (request, text) in [(bar, whole), (bar.within(16..64).unwrap(), &limited)] {
        assert_eq!(json(&request), text);
        assert_eq!(serde_json::from_str::<Constraint>(text).unwrap(), request);
    }
    let last = Constraint::new(1, 1, AllocPolicy::LastMatch).unwrap();
    for request in [last, last.within(5..).unwrap()] {
        let bytes = packed::to_bytes(&request).unwrap();
        assert_eq!(packed::from_bytes::<Constraint>(bytes).unwrap(), request);
    }
    // Formats without `None` leave the field out.
    let short = whole.replace(r#","window":null"#, "");
    assert_eq!(serde_json::from_str::<Constraint>(&short).unwrap(), bar);
    for (old, new, error) in [
        (
            r#""size":16"#,
            r#""size":0"#,
            "The specified size: 0 is not valid.",
        ),
        (
            r#""align":16"#,
            r#""align":12"#,
            "Alignment value is invalid.",
        ),
        ("32", "40", "The address is not aligned."),
        (
            r#""end":63"#,
            r#""end":15"#,
            "The range specified: 16-15 is not valid.",
        ),
        (
            window,
            r#""window":null,"colour":1"#,
            "unknown field `colour`",
        ),
        (r#""align":16,"#, "", "missing field `align`"),
    ] {
        let error_of = error_of::<Constraint>(&limited.replace(old, new));
        assert!(error_of.starts_with(error), "{error_of}");
    }
}

const MAP: &str = concat!(
    r#"{"base":16,"size":16,"ranges":[{"range":{"start":16,"end":19},"value":7},"#,
    r#"{"range":{"start":28,"end":31},"value":8}]}"#
);

/// Returns the map that [`MAP`] encodes.
fn two_values() -> RangeMap<u64> {
    let mut map = RangeMap::new(16, 16).unwrap();
    map.allocate(4, 4, AllocPolicy::LastMatch, 8).unwrap();
    map.allocate(4, 4, AllocPolicy::FirstMatch, 7).unwrap();
    map
}

#[test]
fn maps_are_saved_with_their_values() {
    use divsharun::Error::*;
    let map = two_values();
    assert_eq!(json(&map), MAP);
    assert_eq!(serde_json::from_str::<RangeMap<u64>>(MAP).unwrap(), map);
    let bytes = packed::to_bytes(&map).unwrap();
    assert_eq!(packed::from_bytes::<RangeMap<u64>>(bytes).unwrap(), map);
    let (list, items) = (MAP.find('[').unwrap() + 1, MAP.find(",{").unwrap());
    let (low, high) = (&MAP[list..items], &MAP[items + 1..MAP.len() - 2]);
    let reversed = MAP.replace(&MAP[list..], &format!("{high},{low}]}}"));
    assert_eq!(
        error_of::<RangeMap<u64>>(&reversed),
        format!("item 1: {ResourceNotAvailable}")
    );
    for (part, wrong, error) in [
        (r#""size":16"#, r#""size":0"#, &Underflow.to_string()[..]),
        (
            r#""size":16"#,
            r#""size":18446744073709551615"#,
            &Overflow.to_string(),
        ),
        (
            r#""size":16"#,
            r#""size":15"#,
            &ResourceNotAvailable.to_string(),
        ),
        (
            r#""base":16"#,
            r#""base":17"#,
            &ResourceNotAvailable.to_string(),
        ),
        (
            r#""end":19"#,
            r#""end":28"#,
            &ResourceNotAvailable.to_string(),
        ),
        (
            r#""start":28,"end":31"#,
            r#""start":16,"end":19"#,
            &ResourceNotAvailable.to_string(),
        ),
        (
            r#""start":16"#,
            r#""start":20"#,
            &InvalidRange(20, 19).to_string(),
        ),
        (r#""size":16,"#, "", "missing field `size`"),
        (
            r#""size":16"#,
            r#""size":16,"size":16"#,
            "duplicate field `size`",
        ),
        (r#""value":7"#, r#""value":7,"x":0"#, "unknown field `x`"),
        (r#","value":7"#, "", "missing field `value`"),
        (r#""value":7"#, r#""value":"7""#, "invalid type"),
    ] {
        let found = error_of::<RangeMap<u64>>(&MAP.replacen(part, wrong, 1));
        assert!(found.contains(error), "{wrong}: {found}");
    }
}
