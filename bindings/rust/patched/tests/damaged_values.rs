// SPDX-License-Identifier: Apache-2.0 OR BSD-3-Clause
//! Guards against a reader of saved objects that accepts what is not valid, rejects what is valid, or
//! reads another object. Guards also against needless allocations and quadratic time of the proved readers.
//!
//! The proved strict readers must accept what serde writes. Damaged values are read by serde and by
//! the proved reader of values, which must accept the same ones, and read the same objects.

use box_count::proved::vm_allocator as proved;
use box_count::proved::vm_devices as proved_devices;
use box_count::rattle::{self, Global};
use box_count::value::{self, Fields};
use divsharun::{AddressAllocator, AllocPolicy, DeviceManager, IdAllocator};
use serde::de::DeserializeOwned;
use serde::Serialize;
use serde_json::{json, Value};
use std::fmt::Debug;

#[path = "../../divsharun/tests/packed/mod.rs"]
mod packed;
#[path = "../../divsharun/tests/processor/mod.rs"]
mod processor;
#[path = "../../divsharun/tests/refusing/mod.rs"]
mod refusing;

use processor::processor_time;
use refusing::{peak_of, refusing};

/// Returns the number of objects of each kind that are damaged: 5,000, or the value of the
/// environment variable `SAVED_ROUNDS`.
fn rounds() -> u32 {
    let rounds = std::env::var("SAVED_ROUNDS");
    rounds.map_or(5_000, |rounds| rounds.parse().unwrap())
}

/// A generator of pseudo-random numbers.
struct Draw(u64);

impl Draw {
    fn below(&mut self, bound: u64) -> u64 {
        self.0 ^= self.0 << 13;
        self.0 ^= self.0 >> 7;
        self.0 ^= self.0 << 17;
        (self.0 >> 11) % bound
    }
}

/// Converts a JSON value to a value of the proved readers.
fn to_proved_value(value: &Value) -> value::Value {
    match value {
        Value::Null => value::Value::Null,
        Value::Bool(truth) => value::Value::Bool(*truth),
        Value::Number(number) => match number.as_u64() {
            Some(whole) => value::Value::Whole(whole),
            None => value::Value::Other(number.as_f64().unwrap_or_default()),
        },
        Value::String(text) => value::Value::String(text.clone()),
        Value::Array(items) => {
            let mut list = rattle::Vec::new(Global);
            for item in items {
                assert!(list.push(to_proved_value(item)).is_ok());
            }
            value::Value::Array(list)
        }
        Value::Object(fields) => {
            let fields = fields
                .iter()
                .map(|(name, value)| (name.clone(), to_proved_value(value)));
            value::Value::from(fields.collect::<Fields>())
        }
    }
}

/// Replaces a random part of a value, chosen on a random path from its root.
fn damage(value: &mut Value, draw: &mut Draw) {
    let count = match value {
        Value::Array(items) => items.len(),
        Value::Object(fields) => fields.len(),
        _ => 0,
    };
    let part = draw.below(count as u64 + 1) as usize;
    match value {
        Value::Array(items) if part < count => damage(&mut items[part], draw),
        Value::Object(fields) if part < count => {
            fields
                .values_mut()
                .skip(part)
                .take(1)
                .for_each(|field| damage(field, draw));
        }
        Value::Object(fields) if fields.contains_key("left") && draw.below(2) == 0 => {
            *value = fields[["left", "right"][draw.below(2) as usize]].take();
        }
        Value::Object(fields) if draw.below(2) == 0 => {
            fields.insert("colour".into(), json!(1));
        }
        Value::Object(fields) if draw.below(2) == 0 => {
            let name = fields.keys().next().cloned();
            name.map(|name| fields.remove(&name));
        }
        _ => *value = other(value, draw),
    }
}

/// Returns a replacement for a value.
fn other(value: &Value, draw: &mut Draw) -> Value {
    match (value.as_u64(), draw.below(10)) {
        (Some(number), 0..=4) => json!(number.wrapping_add(draw.below(3)).wrapping_sub(1)),
        (_, 5) => Value::Array(Vec::new()),
        (_, 6) => json!(-1),
        (_, 7) => json!(1.5),
        (_, 8) => json!(["Allocated", "Free"][draw.below(2) as usize]),
        (_, 9) => json!({}),
        _ => Value::Null,
    }
}

/// Writes a value with the fields of each object in random order. Returns `true` if it wrote a field
/// twice, which no value has.
fn write_shuffled(value: &Value, draw: &mut Draw, text: &mut String) -> bool {
    let (mut parts, brackets): (Vec<(String, &Value)>, _) = match value {
        Value::Object(fields) => {
            let named = fields
                .iter()
                .map(|(name, value)| (format!("{name:?}:"), value));
            (named.collect(), ['{', '}'])
        }
        Value::Array(items) => {
            let items = items.iter().map(|item| (String::new(), item));
            (items.collect(), ['[', ']'])
        }
        other => {
            text.push_str(&other.to_string());
            return false;
        }
    };
    let mut is_twice = false;
    if value.is_object() {
        for place in 1..parts.len() {
            parts.swap(place, draw.below(place as u64 + 1) as usize);
        }
        is_twice = draw.below(100) == 0 && !parts.is_empty();
        if is_twice {
            parts.push(parts[draw.below(parts.len() as u64) as usize].clone());
        }
    }
    text.push(brackets[0]);
    for (place, (name, value)) in parts.iter().enumerate() {
        text.push_str(if place > 0 { "," } else { "" });
        text.push_str(name);
        is_twice |= write_shuffled(value, draw, text);
    }
    text.push(brackets[1]);
    is_twice
}

/// A type with a proved reader.
trait Saved: Serialize + DeserializeOwned + Debug {
    /// The proved type.
    type Proved;
    /// Returns an object after some calls, and the proved object after the same calls.
    fn after_calls(draw: &mut Draw) -> (Self, Self::Proved);
    /// Reads a value by the proved reader.
    fn read(value: &value::Value) -> Option<Self::Proved>;
    /// Writes an object by the proved writer.
    fn write(object: &Self::Proved) -> value::Value;
    /// Returns the value that the next bytes encode.
    fn value_of(bytes: &mut dyn Iterator<Item = u8>) -> Option<Value>;
}

impl Saved for AddressAllocator {
    type Proved = proved::AddressAllocator;

    /// Returns a space of 32 addresses.
    fn after_calls(draw: &mut Draw) -> (Self, Self::Proved) {
        let base = [0, 1, 100, u64::MAX - 31][draw.below(4) as usize];
        let mut space = AddressAllocator::new(base, 32).unwrap();
        let mut proved = proved::AddressAllocator::new(Global, base, 32).unwrap();
        for _ in 0..draw.below(8) {
            let size = 1 + draw.below(6);
            let _ = space.allocate(size, 1, AllocPolicy::FirstMatch);
            let _ = proved.allocate(Global, size, 1, proved::AllocPolicy::FirstMatch);
        }
        for range in space.held_ranges().collect::<Vec<_>>() {
            if draw.below(2) == 0 {
                space.free(&range).unwrap();
                let key = proved::RangeInclusive::new(range.start(), range.end()).unwrap();
                proved.free(&key).unwrap();
            }
        }
        (space, proved)
    }

    fn read(value: &value::Value) -> Option<Self::Proved> {
        proved::AddressAllocator::from_value_repaired(Global, value).ok()
    }

    fn write(object: &Self::Proved) -> value::Value {
        object.to_value(Global).unwrap()
    }

    fn value_of(bytes: &mut dyn Iterator<Item = u8>) -> Option<Value> {
        let (space, root) = (range_of(bytes)?, subtree_of(bytes)?);
        Some(json!({"address_space": space, "interval_tree": {"root": root}}))
    }
}

impl Saved for IdAllocator {
    type Proved = proved::IdAllocator;

    /// Returns an allocator of seven ids.
    fn after_calls(draw: &mut Draw) -> (Self, Self::Proved) {
        let base = [0, 5, u32::MAX - 6][draw.below(3) as usize];
        let mut ids = IdAllocator::new(base, base + 6).unwrap();
        let mut proved = proved::IdAllocator::new(Global, base, base + 6).unwrap();
        for _ in 0..draw.below(9) {
            let _ = (ids.allocate_id(), proved.allocate_id());
        }
        for _ in 0..draw.below(6) {
            let id = base + draw.below(7) as u32;
            let _ = (ids.free_id(id), proved.free_id(id));
        }
        (ids, proved)
    }

    fn read(value: &value::Value) -> Option<Self::Proved> {
        proved::IdAllocator::from_value(Global, value).ok()
    }

    fn write(object: &Self::Proved) -> value::Value {
        object.to_value(Global).unwrap()
    }

    fn value_of(bytes: &mut dyn Iterator<Item = u8>) -> Option<Value> {
        Some(json!({
            "range_base": number_of(4, bytes)?,
            "next_id": match bytes.next()? {
                0 => Value::Null,
                1 => json!(number_of(4, bytes)?),
                _ => return None,
            },
            "range_end": number_of(4, bytes)?,
            "freed_ids": list_of(bytes, |bytes| number_of(4, bytes).map(Value::from))?
        }))
    }
}

impl Saved for DeviceManager {
    type Proved = proved_devices::DeviceManager;

    fn after_calls(draw: &mut Draw) -> (Self, Self::Proved) {
        let mut devices = DeviceManager::new(3, 9, 64, 64).unwrap();
        let mut proved = proved_devices::DeviceManager::new(Global, 3, 9, 64, 64).unwrap();
        for _ in 0..draw.below(6) {
            let size = 1 + draw.below(20);
            let _ = devices.reserve(size, 1, AllocPolicy::FirstMatch);
            let _ = proved.reserve(Global, size, 1, proved::AllocPolicy::FirstMatch);
        }
        for id in 3..9 {
            if draw.below(3) == 0 {
                let _ = (devices.release(id), proved.release(id));
            }
        }
        (devices, proved)
    }

    fn read(value: &value::Value) -> Option<Self::Proved> {
        proved_devices::DeviceManager::from_value(Global, value).ok()
    }

    fn write(object: &Self::Proved) -> value::Value {
        object.to_value(Global).unwrap()
    }

    fn value_of(bytes: &mut dyn Iterator<Item = u8>) -> Option<Value> {
        Some(json!({
            "version": number_of(8, bytes)?,
            "id_allocator": IdAllocator::value_of(bytes)?,
            "mmio_allocator": AddressAllocator::value_of(bytes)?,
            "slots": list_of(bytes, |bytes| {
                Some(json!({"id": number_of(4, bytes)?, "mmio_range": range_of(bytes)?}))
            })?
        }))
    }
}

/// Checks that both are one object, or none. The value that an object is saved as depends on its whole state.
fn same<T: Saved>(object: Option<&T>, proved: Option<&T::Proved>, saved: impl Debug) {
    let value = object.map(|object| to_proved_value(&serde_json::to_value(object).unwrap()));
    assert_eq!(value, proved.map(T::write), "{saved:?}");
}

/// Returns the number that the next bytes encode.
fn number_of(count: u32, bytes: &mut dyn Iterator<Item = u8>) -> Option<u64> {
    (0..count).try_fold(0, |number, place| {
        Some(number | u64::from(bytes.next()?) << (8 * place))
    })
}

/// Returns the list that the next bytes encode.
fn list_of(
    bytes: &mut dyn Iterator<Item = u8>,
    item: fn(&mut dyn Iterator<Item = u8>) -> Option<Value>,
) -> Option<Value> {
    let count = number_of(8, bytes)?;
    (0..count).map(|_| item(bytes)).collect()
}

/// Returns the range that the next bytes encode.
fn range_of(bytes: &mut dyn Iterator<Item = u8>) -> Option<Value> {
    let [start, end] = [(); 2].map(|()| number_of(8, bytes));
    Some(json!({"start": start?, "end": end?}))
}

/// Returns the subtree that the next bytes encode.
fn subtree_of(bytes: &mut dyn Iterator<Item = u8>) -> Option<Value> {
    match bytes.next()? {
        0 => Some(Value::Null),
        1 => Some(json!({
            "key": range_of(bytes)?,
            "node_state": *["Free", "Allocated"].get(number_of(4, bytes)? as usize)?,
            "left": subtree_of(bytes)?,
            "right": subtree_of(bytes)?,
            "height": number_of(8, bytes)?
        })),
        _ => None,
    }
}

/// Reads damaged values of one kind. At least a fifth of them must be accepted, and a fifth
/// rejected.
fn damage_each(mut is_read: impl FnMut(&mut Draw) -> bool) {
    let (rounds, mut draw) = (rounds(), Draw(88_172_645_463_325_252));
    let read = (0..rounds).filter(|_| is_read(&mut draw)).count() as u32;
    assert!(rounds / 5 < read && read < rounds * 4 / 5, "{read}");
}

/// Damages the text of an object, and reads it with both readers, which must read the same. Returns
/// whether it is accepted.
fn read_text<T: Saved>(draw: &mut Draw) -> bool {
    let (object, proved) = T::after_calls(draw);
    same(Some(&object), Some(&proved), "calls");
    let mut value = match draw.below(2) {
        0 => serde_json::to_value(&object).unwrap(),
        _ => serde_json::from_str(&T::write(&proved).to_string()).unwrap(),
    };
    for _ in 0..draw.below(4) {
        damage(&mut value, draw);
    }
    let mut text = String::new();
    let is_twice = write_shuffled(&value, draw, &mut text);
    let serde: Option<T> = serde_json::from_str(&text).ok();
    let proved = T::read(&to_proved_value(&value)).filter(|_| !is_twice);
    same(serde.as_ref(), proved.as_ref(), &text);
    serde.is_some()
}

/// Damages the bytes of an object, and reads them with both readers, like [`read_text`].
fn read_bytes<T: Saved>(draw: &mut Draw) -> bool {
    let mut bytes = packed::to_bytes(&T::after_calls(draw).0).unwrap();
    for _ in 0..draw.below(3) {
        let place = draw.below(bytes.len() as u64) as usize;
        match draw.below(16) {
            0 => bytes.truncate(place),
            1 => bytes[place] ^= 1 << draw.below(8),
            _ => bytes[place] = bytes[place].wrapping_add(1 + 254 * draw.below(2) as u8),
        }
        bytes.push(0);
    }
    let value = T::value_of(&mut bytes.iter().copied());
    let proved = value.and_then(|value| T::read(&to_proved_value(&value)));
    let serde: Option<T> = packed::from_bytes(bytes.iter().copied()).ok();
    same(serde.as_ref(), proved.as_ref(), &bytes);
    serde.is_some()
}

#[test]
fn texts_are_read_as_the_proved_readers_do() {
    damage_each(read_text::<AddressAllocator>);
    damage_each(read_text::<IdAllocator>);
    damage_each(read_text::<DeviceManager>);
}

#[test]
fn bytes_are_read_as_the_proved_readers_do() {
    damage_each(read_bytes::<AddressAllocator>);
    damage_each(read_bytes::<IdAllocator>);
    damage_each(read_bytes::<DeviceManager>);
}

#[test]
fn written_ids_and_devices_are_valid() {
    let mut draw = Draw(1);
    for _ in 0..600 {
        let (ids, proved) = IdAllocator::after_calls(&mut draw);
        let (devices, _) = DeviceManager::after_calls(&mut draw);
        assert_eq!(
            to_proved_value(&serde_json::to_value(&ids).unwrap()),
            IdAllocator::write(&proved)
        );
        let value = to_proved_value(&serde_json::to_value(&devices).unwrap());
        let (read, made) = refusing(0, || DeviceManager::read(&value));
        same(Some(&devices), read.as_ref(), "devices");
        // The lists of the ranges and of the slots, a leaf, and three blocks each for the devices, their starts and
        // the freed ids.
        assert!(made <= 12, "{made} allocations");
    }
}

#[test]
fn written_spaces_are_valid_and_depend_on_the_state_alone() {
    let mut draw = Draw(1);
    for round in 0..300 {
        let (mut space, _) = AddressAllocator::after_calls(&mut draw);
        if round >= 150 {
            // More blocks, and a tree of another shape.
            space = AddressAllocator::new(0, 1 << 20).unwrap();
            for _ in 0..round {
                let size = 1 + draw.below(9);
                let start = AllocPolicy::ExactMatch(draw.below(1 << 13));
                let _ = space.allocate(size, 1, start);
            }
        }
        let text = serde_json::to_string(&space).unwrap();
        let value = to_proved_value(&serde_json::from_str(&text).unwrap());
        // The list of the ranges, the leaves of at most 32 blocks, and nodes of at most 16 children. They have 16
        // bytes for a range, 280 for a leaf and 464 for a node.
        let leaves = (space.held_count() + space.gap_count()).div_ceil(32);
        let nodes = match leaves {
            1 => 0,
            2..=16 => 1,
            _ => leaves.div_ceil(16) + 1,
        };
        let most = u64::from(space.held_count() > 0) + leaves + nodes;
        let read = || proved::AddressAllocator::from_value(Global, &value).unwrap();
        let ((read, made), bytes) = peak_of(|| refusing(0, read));
        same(Some(&space), Some(&read), "a space");
        let (repaired, again) = refusing(0, || AddressAllocator::read(&value).unwrap());
        assert!(repaired == read && (made, again) == (most, most));
        let bytes_of = 16 * space.held_count() + 280 * leaves + 464 * nodes;
        assert_eq!(bytes as u64, bytes_of);
        let held: Vec<_> = space.held_ranges().collect();
        let size = space.end() - space.base() + 1;
        let other = AddressAllocator::with_held(space.base(), size, &held).unwrap();
        assert_eq!(serde_json::to_string(&other).unwrap(), text);
    }
}

/// Checks the growth of a call from 300 to 9,000 items. A quadratic call takes 900 times as long.
fn expect_linear<O>(make: impl Fn(u64) -> O, call: fn(&O)) {
    let [few, many] = [300, 9_000].map(|count| {
        let object = make(count);
        let times = (0..5).map(|_| {
            let begun = processor_time();
            call(&object);
            processor_time() - begun
        });
        times.min().unwrap()
    });
    assert!(many < 200 * few, "{few} and {many} nanoseconds");
}

#[test]
fn proved_readers_and_writers_take_linear_time() {
    let every_second = |count| {
        let held = (0..count).map(|at| proved::RangeInclusive::new(2 * at, 2 * at).unwrap());
        let held: Vec<_> = held.collect();
        proved::AddressAllocator::with_held(Global, 0, 2 * count, &held).unwrap()
    };
    expect_linear(every_second, |space| {
        let value = AddressAllocator::write(space);
        let read = proved::AddressAllocator::from_value(Global, &value);
        assert!(read.unwrap() == *space && AddressAllocator::read(&value).unwrap() == *space);
    });
    let freed = |count| {
        let held: Vec<_> = (0..count as u32).map(|at| 2 * at).collect();
        proved::IdAllocator::with_held(Global, 0, 2 * count as u32, &held).unwrap()
    };
    expect_linear(freed, |ids| {
        assert!(IdAllocator::read(&IdAllocator::write(ids)).unwrap() == *ids);
    });
    let devices = |count| {
        let made = proved_devices::DeviceManager::new(Global, 0, count as u32, 0, 2 * count);
        let mut devices = made.unwrap();
        let mut reserve = |_| devices.reserve(Global, 1, 2, proved::AllocPolicy::FirstMatch);
        assert!((0..count).all(|number| reserve(number).is_ok()));
        devices
    };
    expect_linear(devices, |devices| {
        assert!(DeviceManager::read(&DeviceManager::write(devices)).unwrap() == *devices);
    });
}
