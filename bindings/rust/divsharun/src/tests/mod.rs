// SPDX-License-Identifier: Apache-2.0 OR BSD-3-Clause
//! Tests that compare public calls with those of the proved code.

use crate::proved::vm_addresses::{self as proved, Error as Proved};
use crate::proved::vm_ranges::NodeState;
use crate::rattle::Global;
use crate::{AddressAllocator, AllocPolicy, Constraint, Error, RangeInclusive, TryError};
use alloc::format;
use alloc::string::ToString;

/// Checks all errors, including `Overlap`, which no public call returns.
#[test]
fn errors_keep_their_names_fields_and_texts() {
    let [first, second] = [1, 2].map(|start| proved::RangeInclusive::new(start, 7).unwrap());
    let errors = [
        Proved::Overflow,
        Proved::OutOfRange(1),
        Proved::AlreadyReleased(2),
        Proved::NeverAllocated(3),
        Proved::ResourceNotAvailable,
        Proved::InvalidRange(5, 4),
        Proved::InvalidAlignment,
        Proved::Overlap(first, second),
        Proved::InvalidStateTransition(first, NodeState::Allocated),
        Proved::UnalignedAddress,
        Proved::Underflow,
        Proved::InvalidSize(6),
    ];
    for error in errors {
        let (name, text) = (format!("Refused({error:?})"), error.to_string());
        let refused = TryError::from(error);
        assert_eq!((format!("{refused:?}"), refused.to_string()), (name, text));
        assert!(refused < TryError::OutOfMemory);
    }
    let text = Proved::OutOfMemory.to_string();
    let refused = TryError::from(Proved::OutOfMemory);
    assert_eq!(
        (refused, refused.to_string()),
        (TryError::OutOfMemory, text)
    );
}

/// Checks that counted calls return the count of the proved call.
#[test]
fn counts_are_those_of_the_proved_calls() {
    let mut space = AddressAllocator::new(0, 0x8000).unwrap();
    let mut proved = proved::AddressAllocator::new(Global, 0, 0x8000).unwrap();
    for (number, size) in [1, 7, 16, 3].into_iter().cycle().take(4000).enumerate() {
        let at = 16 * (number as u64 * 37 % 2048);
        let policies = [AllocPolicy::FirstMatch, AllocPolicy::ExactMatch(at)];
        let request = Constraint::new(size, 16, policies[number % 2]).unwrap();
        let (answer, count) = match number % 3 {
            0 => space.allocate_counted(size, 16, request.policy()),
            _ => space.allocate_constraint_counted(request),
        };
        let (same, want) = proved.allocate_constraint_counted(Global, request.0);
        let same = same.map(RangeInclusive).map_err(Error::from);
        assert_eq!((answer, count), (same, want));
        let freed = answer.unwrap_or(RangeInclusive::new(at, at + 6).unwrap());
        if number % 5 < 2 {
            let (same, want) = proved.free_counted(&freed.0);
            assert_eq!(
                space.free_counted(&freed),
                (same.map_err(Error::from), want)
            );
        }
    }
    assert!(space.height() > 2);
}
