// SPDX-License-Identifier: Apache-2.0 OR BSD-3-Clause
//! Checks that each library reads what the other saves.

use crate::difference::Tally;
use crate::packed;
use serde::de::DeserializeOwned;
use serde::Serialize;
use serde_json::Value;
use std::fmt::Debug;

/// Returns the value of a space or of ids.
pub fn value_of<T: Serialize>(object: &T) -> Value {
    serde_json::to_value(object).expect("it is written")
}

/// Returns the object of `vm-allocator` that divsharun's saved object encodes.
pub fn reread(port: &divsharun::AddressAllocator) -> vm_allocator::AddressAllocator {
    serde_json::from_value(value_of(port)).expect("vm-allocator reads what the port writes")
}

/// Returns the blocks of a space in order, for any shape of its tree.
pub fn held_and_clear<T: Serialize>(space: &T) -> Vec<Value> {
    let mut blocks = Vec::new();
    add_blocks(&value_of(space)["interval_tree"]["root"], &mut blocks);
    blocks
}

fn add_blocks(node: &Value, blocks: &mut Vec<Value>) {
    if node.is_null() {
        return;
    }
    add_blocks(&node["left"], blocks);
    blocks.push(serde_json::json!([node["key"], node["node_state"]]));
    add_blocks(&node["right"], blocks);
}

/// Checks that each library reads what the other saves, in JSON and in bytes, as the same object.
pub fn compare_saved<R, P>(rust: &R, port: &P, tally: &mut Tally)
where
    R: Serialize + DeserializeOwned + Debug,
    P: Serialize + DeserializeOwned + Debug,
{
    let from_rust: [P; 2] = [
        serde_json::from_value(value_of(rust)).expect("the port reads JSON"),
        packed::from_bytes(packed::to_bytes(rust).expect("bytes")).expect("the port reads bytes"),
    ];
    let from_port: [R; 2] = [
        serde_json::from_value(value_of(port)).expect("vm-allocator reads JSON"),
        packed::from_bytes(packed::to_bytes(port).expect("bytes"))
            .expect("vm-allocator reads bytes"),
    ];
    let is_same = from_rust
        .iter()
        .all(|read| state_of(read) == state_of(port))
        && from_port
            .iter()
            .all(|read| value_of(read) == value_of(port));
    tally.crossings += 4;
    if !is_same {
        tally.unnamed_difference(&format!("saved {rust:?} and {port:?}"));
    }
}

/// Returns the content of a saved object: the blocks of a space, or all fields of ids.
fn state_of<T: Serialize>(object: &T) -> Vec<Value> {
    let value = value_of(object);
    match value.get("address_space") {
        Some(space) => [vec![space.clone()], held_and_clear(object)].concat(),
        None => vec![value],
    }
}

/// Texts that are not valid, but that `vm-allocator` reads.
const DAMAGED: [&str; 4] = [
    r#"{"range_base":5,"next_id":7,"range_end":23,"freed_ids":[],"colour":1}"#,
    r#"{"range_base":5,"range_end":23,"freed_ids":[]}"#,
    r#"{"range_base":5,"next_id":8,"range_end":23,"freed_ids":[6,5,6]}"#,
    r#"{"range_base":23,"next_id":23,"range_end":5,"freed_ids":[]}"#,
];

/// Checks that `vm-allocator` reads each text of [`DAMAGED`] and that divsharun returns an error.
pub fn compare_damaged(tally: &mut Tally) {
    for text in DAMAGED {
        let rust: Result<vm_allocator::IdAllocator, _> = serde_json::from_str(text);
        let port: Result<divsharun::IdAllocator, _> = serde_json::from_str(text);
        match (rust.is_ok(), port.is_ok()) {
            (true, false) => tally.named_difference(13),
            _ => tally.unnamed_difference(text),
        }
    }
}
