// SPDX-License-Identifier: Apache-2.0 OR BSD-3-Clause
//! The conditions that saved values can violate. Proved code chooses the condition.
//!
//! The C library also has this file.

use crate::proved::vm_addresses::Condition;
use core::ffi::CStr;

/// Returns the field of an object that violates a condition, and the text of the condition. There is no
/// field if an item or a node as a whole violates it.
pub(super) fn field_and_text(condition: Condition) -> (Option<&'static CStr>, &'static CStr) {
    match condition {
        Condition::Nesting => (None, c"nodes are nested more than 50 deep"),
        Condition::Keys => (
            Some(c"key"),
            c"the keys do not ascend or share an address, or an allocated key ends at u64::MAX",
        ),
        Condition::Inside => (
            Some(c"root"),
            c"a key is outside the space, or more than 6,293,134,512 keys are allocated",
        ),
        Condition::Tree => (
            Some(c"root"),
            c"the tree is unbalanced, a height is wrong, or it has a gap or free neighbours",
        ),
        Condition::Order => (None, c"the ids of a list do not ascend"),
        Condition::IdRange => (Some(c"range_base"), c"range_base is past range_end"),
        Condition::NextId => (
            Some(c"next_id"),
            c"next_id is neither in the range nor right after it",
        ),
        Condition::FreedIds => (
            Some(c"freed_ids"),
            c"a freed id is outside the range or not below next_id",
        ),
        Condition::Version => (Some(c"version"), c"the version is not 1"),
        Condition::Devices => (
            Some(c"slots"),
            c"the devices do not pair the allocated ids with the allocated ranges",
        ),
    }
}
