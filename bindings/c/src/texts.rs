// SPDX-License-Identifier: Apache-2.0 OR BSD-3-Clause
//! Saving objects as JSON, and reading them.

use crate::handle::{non_null, Handle};
use crate::json::{dvs_text_fault, dvs_text_limits, Read, Reader, TextFault};
use crate::proved::vm_addresses::{
    AddressAllocator, RangeInclusive, ReadNodes, SavedError, Side, WrittenTree,
};
use crate::proved::vm_devices::{DeviceManager, DeviceSlot, ReadDevices};
use crate::proved::vm_ids::{IdAllocator, ReadIds};
use crate::proved::vm_ranges::NodeState;
use crate::rattle::{self, Global};
use crate::status::{
    DVS_LIMIT_EXCEEDED, DVS_NOT_A_STATE, DVS_NOT_JSON, DVS_NULL, DVS_OUT_OF_MEMORY,
};
use crate::{dvs_status, status_of, CallError, Out};
use alloc::ffi::CString;
use alloc::vec::Vec;
use core::ffi::c_char;
use core::{slice, str};

// ---- Writing

/// The destination of a text.
pub(crate) trait Sink {
    fn text(&mut self, text: &str);
    fn number(&mut self, number: u64);
}

/// Counts the bytes of a text.
impl Sink for usize {
    fn text(&mut self, text: &str) {
        *self += text.len();
    }

    fn number(&mut self, number: u64) {
        *self += number.checked_ilog10().unwrap_or(0) as usize + 1;
    }
}

/// Appends a text. There is memory for it.
impl Sink for Vec<u8> {
    fn text(&mut self, text: &str) {
        self.extend_from_slice(text.as_bytes());
    }

    fn number(&mut self, mut number: u64) {
        let mut digits = [b'0'; 20];
        let mut first = digits.len() - 1;
        while number > 9 {
            digits[first] += (number % 10) as u8;
            number /= 10;
            first -= 1;
        }
        digits[first] += number as u8;
        self.extend_from_slice(&digits[first..]);
    }
}

/// A value that is written as JSON.
pub(crate) trait Json {
    fn write(&self, to: &mut impl Sink);
}

/// Implements `Json` for structures with these fields.
macro_rules! write_fields {
    ($(
        $object:ty as $name:literal, $this:ident:
            $first:ident = $first_value:expr $(, $field:ident = $value:expr)*;
    )*) => {$(
        impl super::Json for $object {
            fn write(&self, to: &mut impl super::Sink) {
                let $this = self;
                to.text(concat!("{\"", stringify!($first), "\":"));
                $first_value.write(to);
                $(
                    to.text(concat!(",\"", stringify!($field), "\":"));
                    $value.write(to);
                )*
                to.text("}");
            }
        }
    )*};
}

#[path = "../../rust/divsharun/src/saved/fields.rs"]
mod fields;
use fields::{List, WithBlocks};

impl Json for u64 {
    fn write(&self, to: &mut impl Sink) {
        to.number(*self);
    }
}

impl Json for u32 {
    fn write(&self, to: &mut impl Sink) {
        to.number((*self).into());
    }
}

impl Json for NodeState {
    fn write(&self, to: &mut impl Sink) {
        to.text(match self {
            NodeState::Free => r#""Free""#,
            NodeState::Allocated => r#""Allocated""#,
        });
    }
}

impl<T: Json> Json for Option<T> {
    #[inline(always)]
    fn write(&self, to: &mut impl Sink) {
        match self {
            Some(value) => value.write(to),
            None => to.text("null"),
        }
    }
}

impl Json for WrittenTree<'_> {
    fn write(&self, to: &mut impl Sink) {
        self.root().write(to);
    }
}

impl<F: Fn() -> I, I: IntoIterator<Item: Json>> Json for List<F> {
    fn write(&self, to: &mut impl Sink) {
        to.text("[");
        for (place, item) in (self.1)().into_iter().enumerate() {
            to.text(if place > 0 { "," } else { "" });
            item.write(to);
        }
        to.text("]");
    }
}

pub(crate) fn save_space(space: &AddressAllocator) -> Result<CString, CallError> {
    text_of(&WithBlocks(space, &space.written_blocks(Global)?))
}

pub(crate) fn save_devices(manager: &DeviceManager) -> Result<CString, CallError> {
    let blocks = manager.addresses().written_blocks(Global)?;
    text_of(&WithBlocks(manager, &blocks))
}

/// Returns the text of a value. It is counted first, so that it is allocated once.
pub(crate) fn text_of(value: &impl Json) -> Result<CString, CallError> {
    let mut length = 0;
    value.write(&mut length);
    let mut text = Vec::from(rattle::Vec::with_capacity(Global, length + 1)?);
    value.write(&mut text);
    text.push(0);
    Ok(CString::from_vec_with_nul(text).expect("JSON contains no zero byte"))
}

/// Writes the text of a saved object to `text`, and returns its length.
pub(crate) fn save(
    text: Out<*mut c_char>,
    saved: impl FnOnce() -> Result<CString, CallError>,
) -> Result<usize, CallError> {
    let (text, saved) = (non_null(text)?, saved()?);
    let length = saved.as_bytes().len();
    text.write(saved.into_raw());
    Ok(length)
}

// ---- Reading

/// Creates the object that a text encodes, and writes its pointer to `out`. `read` reads the parts
/// of the object.
///
/// # Safety
///
/// The text is null or points to `length` readable bytes.
pub(crate) unsafe fn read<T>(
    text: *const c_char,
    length: usize,
    limits: Option<&dvs_text_limits>,
    out: Out<*mut Handle<T>>,
    fault: Out<dvs_text_fault>,
    read: fn(&mut Reader<'_>) -> Read<T>,
) -> dvs_status {
    let make = || -> Read<()> {
        let (out, limits) = (non_null(out)?, limits.copied().unwrap_or_default());
        // SAFETY: the caller's contract.
        let text = unsafe { text_from(text, length, limits) }?;
        let made = Handle::new(read_all(text, limits, read)?);
        out.write(made.map_err(|_| DVS_OUT_OF_MEMORY)?);
        Ok(())
    };
    status_of(make(), fault)
}

/// Returns the text of a caller.
///
/// # Safety
///
/// The text is null or points to `length` readable bytes.
unsafe fn text_from<'a>(
    text: *const c_char,
    length: usize,
    limits: dvs_text_limits,
) -> Read<&'a str> {
    if text.is_null() {
        return Err(DVS_NULL.into());
    }
    if limits.length > 0 && length > limits.length {
        let reason = c"the text is too long".as_ptr();
        return Err(TextFault::of(DVS_LIMIT_EXCEEDED, limits.length, reason));
    }
    if isize::try_from(length).is_err() {
        return Err(DVS_NOT_JSON.into());
    }
    // SAFETY: `length` bytes are readable, and `length` is at most `isize::MAX`.
    let bytes = unsafe { slice::from_raw_parts(text.cast::<u8>(), length) };
    str::from_utf8(bytes).map_err(|error| {
        let reason = c"the text is not UTF-8".as_ptr();
        TextFault::of(DVS_NOT_JSON, error.valid_up_to(), reason)
    })
}

/// Reads the object of a whole text. If it encodes no object, the rest of the text is checked as
/// well, because a text that is not JSON has that status.
fn read_all<T>(
    text: &str,
    limits: dvs_text_limits,
    read: fn(&mut Reader<'_>) -> Read<T>,
) -> Read<T> {
    let object = Reader::read(text, limits, read);
    if matches!(&object, Err(fault) if fault.status == DVS_NOT_A_STATE) {
        Reader::read(text, limits, Reader::check_value)?;
    }
    object
}

fn read_range(from: &mut Reader<'_>) -> Read<RangeInclusive> {
    let (start, mut ends) = (from.start(), [0; 2]);
    from.object([c"start", c"end"], |from, at| {
        from.whole(u64::MAX).map(|end| ends[at] = end)
    })?;
    let range = RangeInclusive::new(ends[0], ends[1]);
    range.map_err(|_| from.not_a_state(c"the range is not valid").at(start))
}

fn read_state(from: &mut Reader<'_>) -> Read<NodeState> {
    let place = from.one_of(&[c"Free", c"Allocated"])?;
    Ok([NodeState::Free, NodeState::Allocated][place])
}

/// Reads a node, with all nodes below it, as the child on this side of the node around it.
fn read_subtree(from: &mut Reader<'_>, nodes: &mut ReadNodes, side: Side) -> Read<()> {
    if from.skip_null()? {
        return Ok(());
    }
    nodes.begin().map_err(|error| from.of_parts(error, &[]))?;
    let (mut key, mut state, mut height) = (None, NodeState::Free, 0);
    let names = [c"key", c"node_state", c"left", c"right", c"height"];
    let fields = from.object(names, |from, at| match at {
        0 => read_range(from).map(|range| key = Some(range)),
        1 => read_state(from).map(|read| state = read),
        2 => read_subtree(from, nodes, Side::Left),
        3 => read_subtree(from, nodes, Side::Right),
        _ => from.whole(u64::MAX).map(|number| height = number),
    })?;
    let ended = nodes.end(side, from.some(key)?, state, height);
    ended.map_err(|error| from.of_parts(error, &fields))
}

/// Reads an address allocator, which `made` makes of its space and its nodes.
pub(crate) fn read_space(
    from: &mut Reader<'_>,
    made: impl FnOnce(Global, RangeInclusive, &ReadNodes) -> Result<AddressAllocator, SavedError>,
) -> Read<AddressAllocator> {
    let (mut nodes, mut space, mut tree) = (ReadNodes::new(Global), None, [(None, 0)]);
    // The root ends as a left child.
    let mut root = |from: &mut Reader<'_>, _| read_subtree(from, &mut nodes, Side::Left);
    let names = [c"address_space", c"interval_tree"];
    from.object(names, |from, at| match at {
        0 => read_range(from).map(|range| space = Some(range)),
        _ => from
            .object([c"root"], &mut root)
            .map(|fields| tree = fields),
    })?;
    let made = made(Global, from.some(space)?, &nodes);
    made.map_err(|error| from.of_parts(error, &tree))
}

fn read_id(from: &mut Reader<'_>) -> Read<u32> {
    from.whole(u32::MAX.into()).map(|id| id as u32)
}

pub(crate) fn read_ids(from: &mut Reader<'_>) -> Read<IdAllocator> {
    let (mut ends, mut next, mut freed) = ([0; 2], None, ReadIds::new(Global));
    let names = [c"range_base", c"range_end", c"next_id", c"freed_ids"];
    let fields = from.object(names, |from, at| match at {
        0 | 1 => read_id(from).map(|id| ends[at] = id),
        2 if from.skip_null()? => Ok(()),
        2 => read_id(from).map(|id| next = Some(id)),
        _ => from.list(read_id, |id| freed.push(id)),
    })?;
    let made = IdAllocator::from_ids(ends[0], next, ends[1], freed);
    made.map_err(|error| from.of_parts(error, &fields))
}

fn read_slot(from: &mut Reader<'_>) -> Read<DeviceSlot> {
    let (mut id, mut range) = (0, None);
    from.object([c"id", c"mmio_range"], |from, at| match at {
        0 => read_id(from).map(|read| id = read),
        _ => read_range(from).map(|read| range = Some(read)),
    })?;
    let range = from.some(range)?;
    Ok(DeviceSlot { id, range })
}

pub(crate) fn read_devices(from: &mut Reader<'_>) -> Read<DeviceManager> {
    let (mut version, mut ids, mut space) = (0, None, None);
    let mut slots = ReadDevices::new(Global);
    let names = [c"version", c"id_allocator", c"mmio_allocator", c"slots"];
    let fields = from.object(names, |from, at| match at {
        0 => from.whole(u64::MAX).map(|number| version = number),
        1 => read_ids(from).map(|read| ids = Some(read)),
        2 => read_space(from, AddressAllocator::from_nodes).map(|read| space = Some(read)),
        _ => from.list(read_slot, |slot| slots.push(slot)),
    })?;
    let (ids, space) = (from.some(ids)?, from.some(space)?);
    let made = DeviceManager::from_devices(Global, version, ids, space, &slots);
    made.map_err(|error| from.of_parts(error, &fields))
}

/// # Safety
///
/// The text is null, or from a call that saves an object and unchanged. It is not used after this
/// call.
#[unsafe(no_mangle)]
pub unsafe extern "C" fn dvs_text_destroy(text: *mut c_char) {
    if !text.is_null() {
        // SAFETY: `save` made it as a `CString`, and it is dropped only here.
        drop(unsafe { CString::from_raw(text) });
    }
}
