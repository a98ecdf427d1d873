// SPDX-License-Identifier: Apache-2.0 OR BSD-3-Clause
//! Guards against a call that loses an object, or ends the process without need, if memory runs out,
//! and against needless allocations.
//!
//! If memory runs out, a `try_` call returns `OutOfMemory` and changes nothing, and any other
//! call ends the process. The program starts itself again to observe that.

mod refusing;

use divsharun::{
    AddressAllocator, AllocPolicy, Conflict, Constraint, DeviceManager, Error, Gaps, GapsIn,
    HeldRanges, HeldRangesIn, IdAllocator, IdRequest, ListError, RangeInclusive, RangeMap,
    TryError,
};
use refusing::{blocks, peak_of, refusing};
use std::array::from_fn;
use std::cell::RefCell;
use std::env;
use std::fmt::Debug;
use std::io::Write;
use std::os::unix::process::ExitStatusExt;
use std::process::Command;
use AllocPolicy::{ExactMatch, FirstMatch, LastMatch};

/// The variable with the numbers of the call that ends the process, and of its allocation that fails.
const ENDING: &str = "DIVSHARUN_TEST_OF_MEMORY";

/// The signal of a process that `abort` ended.
const ABORTED: i32 = 6;

/// The allocations of the first entry of a list: a leaf, and memory for its entries.
const FIRST: u64 = 2;

/// The allocations of a split of a full leaf that is the whole tree: a leaf, a list of nodes, and a root.
const SPLIT: u64 = 3;

/// The allocations of a move of one of the 16 ranges to a part of the gap that it leaves: a leaf, a list, and a node for
/// each of the two levels that a tree of 16 ranges can have.
const MOVE: u64 = 4;

type Tried = Result<(), TryError>;
type TriedCall = fn(&mut AddressAllocator) -> Tried;
type EndedCall = fn(&mut AddressAllocator);

// src/lib.rs: "Allocating or moving a range allocates nothing if its leaf has room. Otherwise it
// allocates a leaf, a node for each full node right above the leaf, one for a new root if all are full,
// and a list of these nodes. A move to a part of the gap that it leaves always allocates a leaf, and a
// list of nodes for the highest tree of these ranges. `allocate_all` also allocates three lists, and two
// more if a request fails. A copy allocates all leaves and nodes, `with_held` also a list, and
// `with_free` two."

/// Calls that return an error, each with the number of its allocations on [`full_leaf`]: one for each
/// leaf and inner node of a new tree or of a copy, and three for a split of the full leaf. A call with
/// ranges copies the list, and one with requests makes three lists. Holes between free ranges are a list
/// too.
const TRIED: [(u64, TriedCall); 42] = [
    (1, |_| AddressAllocator::try_new(0, 64).map(drop)),
    (1, |_| AddressAllocator::try_over(both()[0]).map(drop)),
    (1, |space| space.try_clone().map(drop)),
    (1, |_| of_list(AddressAllocator::try_with_held(0, 64, &[]))),
    (1 + 1, |_| {
        of_list(AddressAllocator::try_with_held(0, 64, &both()))
    }),
    (1 + 1, |_| {
        of_list(AddressAllocator::try_with_held(16, 48, &both()))
    }),
    (1 + (3 + 1) + (3 + 1), |_| {
        let space = AddressAllocator::try_with_held(0, 160, &in_three_leaves())?;
        space.try_clone().map(drop)
    }),
    (1 + 1 + 1, |_| {
        of_list(AddressAllocator::try_with_free(&three_gaps()))
    }),
    (1 + 1, |_| {
        let whole = RangeInclusive::new(0, 63)?;
        of_list(AddressAllocator::try_with_free(&[whole]))
    }),
    (1, |_| {
        refused(AddressAllocator::try_with_free(&[both()[1], both()[0]]))
    }),
    (0, |_| refused(AddressAllocator::try_with_free(&[]))),
    (3 + SPLIT, |space| {
        of_list(space.try_allocate_all(&three_requests()))
    }),
    (0, |space| of_list(space.try_allocate_all(&[]))),
    (SPLIT, |space| {
        space.try_allocate(4, 1, FirstMatch).map(drop)
    }),
    (SPLIT, |space| space.try_allocate(4, 1, LastMatch).map(drop)),
    (SPLIT, |space| {
        space.try_allocate(4, 1, ExactMatch(4)).map(drop)
    }),
    (0, |space| {
        space.try_allocate(16, 1, ExactMatch(24)).map(drop)
    }),
    // A range in the middle of the only gap splits a leaf with room.
    (1, |_| {
        let mut space = AddressAllocator::try_new(0, 0x1000)?;
        let held = space.try_allocate(0x100, 0x100, ExactMatch(0x500))?;
        assert_eq!((held.start(), held.end()), (0x500, 0x5ff));
        let counts = (space.held_count(), space.gap_count(), space.height());
        assert_eq!(counts, (1, 2, 1));
        Ok(())
    }),
    // A range in the middle of a gap splits a leaf with 31 ranges and gaps.
    (1 + 1 + SPLIT, |_| {
        let mut space = AddressAllocator::try_with_held(0, 90, &in_a_leaf()[..15])?;
        space.try_allocate(4, 1, ExactMatch(4)).map(drop)
    }),
    (SPLIT, |space| {
        let request = in_the_middle(4, FirstMatch);
        space.try_allocate_constraint(request).map(drop)
    }),
    (SPLIT, |space| {
        let request = in_the_middle(4, LastMatch);
        space.try_allocate_constraint(request).map(drop)
    }),
    (SPLIT, |space| {
        let request = in_the_middle(4, ExactMatch(28));
        space.try_allocate_constraint(request).map(drop)
    }),
    (0, |space| {
        refused(space.try_allocate_constraint(in_the_middle(16, FirstMatch)))
    }),
    (1, |space| {
        let named = space.layout().try_named([(both()[0], "disk")]);
        named.map(drop)
    }),
    (MOVE, |space| space.try_move_range(&both()[0], 4).map(drop)),
    (0, |space| {
        refused(space.try_move_range(&both()[0], both()[1].start()))
    }),
    (MOVE, |space| {
        let request = in_the_middle(4, LastMatch);
        space.try_move_constraint(&both()[0], request).map(drop)
    }),
    (MOVE, |space| {
        let beside = request(16, ExactMatch(24));
        space.try_move_constraint(&both()[1], beside).map(drop)
    }),
    (0, |space| {
        let own = request(8, ExactMatch(40));
        space.try_move_constraint(&both()[1], own).map(drop)
    }),
    (0, |space| {
        let request = in_the_middle(16, FirstMatch);
        refused(space.try_move_constraint(&both()[0], request))
    }),
    (3 + SPLIT, |space| {
        let requests = [in_the_middle(4, LastMatch), request(4, FirstMatch)];
        of_list(space.try_allocate_all(&requests))
    }),
    (0, |space| refused(space.try_allocate(64, 1, FirstMatch))),
    (0, |space| refused(space.try_allocate(0, 1, FirstMatch))),
    (FIRST, |_| one_held_id().try_free_id(0).map(drop)),
    (0, |_| refused(one_held_id().try_free_id(1))),
    (0, |_| one_held_id().try_clone().map(drop)),
    (1, |_| DeviceManager::try_new(0, 0, 0, 64).map(drop)),
    (1 + 1, |_| {
        let devices = DeviceManager::try_new(0, 0, 0, 64)?;
        devices.try_addresses().map(drop)
    }),
    (1, |_| {
        let devices = DeviceManager::try_new(0, 0, 0, 64)?;
        devices.try_ids().map(drop)
    }),
    (1 + 3 * FIRST, |_| {
        let mut devices = DeviceManager::try_new(0, 0, 0, 64)?;
        devices.try_reserve(1, 1, FirstMatch)?;
        devices.try_release(0)
    }),
    (1 + 3 * FIRST, |_| {
        let mut devices = DeviceManager::try_new(0, 0, 0, 64)?;
        devices.try_reserve_constraint(in_the_middle(1, FirstMatch))?;
        devices.try_release(0)
    }),
    (2 * (1 + 2 * FIRST), |_| {
        let mut devices = DeviceManager::try_new(0, 0, 0, 64)?;
        devices.try_reserve(1, 1, FirstMatch)?;
        devices.try_clone().map(drop)
    }),
];

/// Calls that end the process, each with the number of its allocations on [`full_leaf`]. A few
/// freed ids, devices or starts are one leaf.
const ENDED: [(u64, EndedCall); 25] = [
    (1, |_| assert!(AddressAllocator::new(0, 64).is_ok())),
    (1, |_| drop(AddressAllocator::over(both()[0]))),
    (1, |space| drop(space.clone())),
    (1 + 1, |_| {
        assert!(AddressAllocator::with_held(0, 64, &both()).is_ok())
    }),
    (1 + 1 + 1, |_| {
        assert!(AddressAllocator::with_free(&three_gaps()).is_ok())
    }),
    (3 + SPLIT, |space| {
        assert!(space.allocate_all(&three_requests()).is_ok())
    }),
    (SPLIT, |space| {
        assert!(space.allocate(4, 1, FirstMatch).is_ok())
    }),
    (SPLIT, |space| {
        assert!(space.allocate_counted(4, 1, ExactMatch(4)).0.is_ok())
    }),
    (SPLIT, |space| {
        let request = in_the_middle(4, FirstMatch);
        assert!(space.allocate_constraint(request).is_ok())
    }),
    (SPLIT, |space| {
        let request = in_the_middle(4, LastMatch);
        assert!(space.allocate_constraint_counted(request).0.is_ok())
    }),
    (1, |space| drop(space.layout().named([(both()[0], "disk")]))),
    (MOVE, |space| {
        assert!(space.move_range(&both()[0], 4).is_ok())
    }),
    (MOVE, |space| {
        let request = in_the_middle(4, FirstMatch);
        assert!(space.move_constraint(&both()[0], request).is_ok())
    }),
    (FIRST, |_| drop(one_free_id())),
    (2 * FIRST, |_| drop(one_free_id().clone())),
    (FIRST, |_| {
        assert!(IdAllocator::with_held(0, 9, &[1]).is_ok())
    }),
    (FIRST, |_| {
        let mut ids = IdAllocator::new(0, 9).expect("ids");
        assert!(ids.allocate_in(5..=9).is_ok() && ids.allocate_exact(3).is_ok())
    }),
    (1, |_| {
        let mut ids = IdAllocator::new(0, 9).expect("ids");
        assert!(ids.allocate_ids(3).is_ok())
    }),
    (1, |_| assert!(DeviceManager::new(0, 0, 0, 64).is_ok())),
    (1 + 3 * FIRST, |_| {
        reserve_and_release(|devices| devices.reserve(1, 1, FirstMatch).is_ok())
    }),
    (1 + 3 * FIRST, |_| {
        let request = in_the_middle(1, FirstMatch);
        reserve_and_release(|devices| devices.reserve_constraint(request).is_ok())
    }),
    (1 + 3 * FIRST, |_| {
        let (id, request) = (IdRequest::Lowest, in_the_middle(1, FirstMatch));
        reserve_and_release(|devices| devices.reserve_with_id(id, request).is_ok())
    }),
    (2 * (1 + 2 * FIRST), |_| {
        let mut devices = DeviceManager::new(0, 0, 0, 64).expect("a manager");
        assert!(devices.reserve(1, 1, FirstMatch).is_ok());
        drop(devices.clone());
    }),
    (1 + 1, |space| {
        let layout = space.layout().named([(both()[0], "disk")]);
        drop(layout.clone());
    }),
    // The values have a list, and their indexes have a leaf.
    (1 + (1 + FIRST) + (1 + 1 + FIRST), |_| {
        let mut map = RangeMap::new(0, 64).expect("a map");
        assert!(map.allocate(1, 1, FirstMatch, 'a').is_ok());
        drop(map.clone());
    }),
];

fn main() {
    if let Ok(text) = env::var(ENDING) {
        let (row, number) = text.split_once(' ').expect("two numbers");
        let (_, call) = ENDED[row.parse::<usize>().expect("a number")];
        let mut space = full_leaf();
        refusing(number.parse().expect("a number"), || call(&mut space));
        return;
    }
    count_requests();
    refuse_each_request();
    conflicts_without_memory();
    full_nodes_are_split();
    objects_stay_the_same();
    no_request_is_made();
    items_without_memory();
    pictures_without_memory();
    lists_have_no_spare_bytes();
    short_lists_take_few_bytes();
    leaves_are_joined();
    freed_ids_take_few_bytes();
    ranges_take_few_bytes();
    processes_are_ended();
    println!("each allocation is counted, and failed in turn");
}

/// Returns the space [0, 63] with [16, 23] and [40, 47] allocated. It has five blocks.
fn two_held() -> AddressAllocator {
    let mut space = AddressAllocator::new(0, 64).expect("a space");
    for start in [16, 40] {
        let held = space.allocate(8, 1, ExactMatch(start));
        assert_eq!(held.map(|range| range.start()), Ok(start));
    }
    space
}

/// Returns [`two_held`] with 14 more allocated ranges behind it, so that its leaf has 32 blocks.
fn full_leaf() -> AddressAllocator {
    AddressAllocator::with_held(0, 91, &in_a_leaf()).expect("a space")
}

/// Returns the ranges of [`full_leaf`].
fn in_a_leaf() -> [RangeInclusive; 16] {
    from_fn(|at| match both().get(at) {
        Some(range) => *range,
        None => RangeInclusive::new(60 + 2 * at as u64, 60 + 2 * at as u64).expect("a range"),
    })
}

/// Returns the ranges of a space of 160 addresses with 81 blocks.
fn in_three_leaves() -> [RangeInclusive; 40] {
    from_fn(|at| RangeInclusive::new(4 * at as u64 + 1, 4 * at as u64 + 2).expect("a range"))
}

/// Returns the ranges of [`two_held`].
fn both() -> [RangeInclusive; 2] {
    [16, 40].map(|start| RangeInclusive::new(start, start + 7).expect("a range"))
}

/// Returns the gaps of [`two_held`].
fn three_gaps() -> [RangeInclusive; 3] {
    [(0, 15), (24, 39), (48, 63)]
        .map(|(start, end)| RangeInclusive::new(start, end).expect("a range"))
}

fn request(size: u64, policy: AllocPolicy) -> Constraint {
    Constraint::new(size, 1, policy).expect("a request")
}

/// Returns a request whose window begins and ends inside the second gap of [`two_held`].
fn in_the_middle(size: u64, policy: AllocPolicy) -> Constraint {
    request(size, policy).within(26..38).expect("a window")
}

/// Returns requests that fill a gap, and split another at its start and the third in the middle.
fn three_requests() -> [Constraint; 3] {
    [
        request(16, LastMatch),
        request(4, FirstMatch),
        request(4, ExactMatch(28)),
    ]
}

/// Returns the result of a call with a list, without the index.
fn of_list<T>(answer: Result<T, ListError<TryError>>) -> Tried {
    Ok(answer.map(drop)?)
}

/// Checks that the call returned an error other than `OutOfMemory`, which is returned.
fn refused<T: Debug>(answer: Result<T, impl Into<TryError>>) -> Tried {
    match answer.map_err(Into::into) {
        Err(TryError::Refused(_)) => Ok(()),
        Err(TryError::OutOfMemory) => Err(TryError::OutOfMemory),
        other => panic!("{other:?}"),
    }
}

fn one_held_id() -> IdAllocator {
    let mut ids = IdAllocator::new(0, 0).expect("ids");
    assert_eq!(ids.allocate_id(), Ok(0));
    ids
}

fn one_free_id() -> IdAllocator {
    let mut ids = one_held_id();
    assert_eq!(ids.free_id(0), Ok(0));
    ids
}

/// Makes an allocation for the space, and first entries of the devices, their starts and the freed ids.
fn reserve_and_release(reserve: impl Fn(&mut DeviceManager) -> bool) {
    let mut devices = DeviceManager::new(0, 0, 0, 64).expect("a manager");
    assert!(reserve(&mut devices));
    assert_eq!(devices.release(0), Ok(()));
}

fn count_requests() {
    for (row, (requests, call)) in TRIED.iter().enumerate() {
        let mut space = full_leaf();
        let (answer, made) = refusing(0, || call(&mut space));
        assert_eq!((answer, made), (Ok(()), *requests), "row {row}");
    }
    for (row, (requests, call)) in ENDED.iter().enumerate() {
        let mut space = full_leaf();
        let before = blocks();
        let ((), made) = refusing(0, || call(&mut space));
        assert_eq!(made, *requests, "row {row}");
        drop(space);
        assert_eq!(blocks(), before - 1, "row {row}");
    }
}

fn refuse_each_request() {
    for (row, (requests, call)) in TRIED.iter().enumerate() {
        for number in 1..=*requests {
            let (mut space, unchanged) = (full_leaf(), full_leaf());
            let before = blocks();
            let (answer, _) = refusing(number, || call(&mut space));
            assert_eq!(answer, Err(TryError::OutOfMemory), "row {row}");
            assert_eq!((&space, blocks()), (&unchanged, before), "row {row}");
            assert_eq!(call(&mut space), Ok(()), "row {row} again");
        }
    }
}

/// Checks a list whose last request fails. It has no conflict if memory for the conflict runs out.
fn conflicts_without_memory() {
    let requests = [request(4, ExactMatch(28)); 2];
    for number in 0..=3 + SPLIT + 2 {
        let mut space = full_leaf();
        let (answer, made) = refusing(number, || space.try_allocate_all(&requests));
        let failure = answer.expect_err("a conflict");
        let ran_out = failure.error == TryError::OutOfMemory;
        assert_eq!(ran_out, (1..=3 + SPLIT).contains(&number), "{number}");
        assert_eq!(failure.conflict.is_some(), number == 0, "{number}");
        assert!(space == full_leaf() && (number > 0 || made == 3 + SPLIT + 2));
    }
}

/// Checks a split of one of 16^3 full leaves, under three full nodes. It allocates a leaf, a node beside each full one, a
/// root, and the list of these nodes. If one of these allocations fails, the tree is the same.
fn full_nodes_are_split() {
    let held = (0..1 << 16).map(|number| RangeInclusive::new(4 * number, 4 * number));
    let held: Vec<_> = held.map(|range| range.expect("a range")).collect();
    let unchanged = AddressAllocator::with_held(0, 4 << 16, &held).expect("a space");
    assert_eq!(unchanged.height(), 1 + 3);
    for policy in [FirstMatch, LastMatch, ExactMatch(1 << 17 | 2)] {
        let mut space = unchanged.clone();
        let before = blocks();
        for number in 1..=1 + 3 + 1 + 1 {
            let (answer, _) = refusing(number, || space.try_allocate(1, 1, policy));
            assert_eq!(answer, Err(TryError::OutOfMemory), "{number}");
            assert_eq!((space.height(), blocks()), (4, before), "{number}");
            assert!(space == unchanged, "{number}");
        }
        let (answer, made) = refusing(0, || space.try_allocate(1, 1, policy));
        assert_eq!((answer.is_ok(), made), (true, 1 + 3 + 1 + 1));
        assert_eq!((space.height(), blocks()), (5, before + 1 + 3 + 1));
    }
}

/// Checks that ids and devices do not change if memory runs out.
fn objects_stay_the_same() {
    let mut ids = one_held_id();
    unchanged_until_allowed(&mut ids, IdAllocator::clone, |ids| ids.try_free_id(0));
    assert_eq!(ids.held_count(), 0);
    let mut ids = IdAllocator::new(0, 900).expect("ids");
    unchanged_until_allowed(&mut ids, IdAllocator::clone, |ids| {
        ids.try_allocate_exact(600)
    });
    unchanged_until_allowed(&mut ids, IdAllocator::clone, |ids| {
        ids.try_allocate_in(900..1000)
    });
    unchanged_until_allowed(&mut ids, IdAllocator::clone, |ids| {
        ids.try_allocate_ids(899)
    });
    assert!(ids.held_ids().eq(0..901));
    // Each id within a run splits it.
    let ids = IdAllocator::with_held(0, 900, &[900]).expect("ids");
    memory_for_runs(ids, IdAllocator::try_allocate_exact);
    let mut ids = IdAllocator::new(0, 900).expect("ids");
    assert!(ids.allocate_ids(900).is_ok() && ids.free_id(0).is_ok());
    memory_for_runs(ids, IdAllocator::try_free_id);
    let mut devices = DeviceManager::new(0, 1, 0, 64).expect("a manager");
    unchanged_until_allowed(&mut devices, DeviceManager::clone, |devices| {
        devices.try_reserve(1, 1, FirstMatch)
    });
    assert_eq!(devices.device_count(), 1);
    unchanged_until_allowed(&mut devices, DeviceManager::clone, |devices| {
        devices.try_release(0)
    });
    assert_eq!(devices.device_count(), 0);
    let mut devices = DeviceManager::new(0, 9, 0, 64).expect("a manager");
    unchanged_until_allowed(&mut devices, DeviceManager::clone, |devices| {
        devices.try_reserve_constraint(in_the_middle(1, LastMatch))
    });
    assert_eq!(devices.slot(0).map(|range| range.start()), Some(37));
    unchanged_until_allowed(&mut devices, DeviceManager::clone, |devices| {
        devices.try_reserve_with_id(IdRequest::LowestIn(5, 9), request(1, LastMatch))
    });
    assert_eq!(devices.slot(5).map(|range| range.start()), Some(63));
    let mut devices = DeviceManager::new(0, 15, 0, 91).expect("a manager");
    for range in in_a_leaf() {
        let reserved = devices.reserve(range.len(), 1, ExactMatch(range.start()));
        assert_eq!(reserved.map(|slot| slot.range), Ok(range));
    }
    unchanged_until_allowed(&mut devices, DeviceManager::clone, |devices| {
        devices.try_move_constraint(0, in_the_middle(4, LastMatch))
    });
    assert_eq!(devices.slot(0).map(|range| range.start()), Some(34));
}

/// Checks calls of which each adds a run to the free ids, until a leaf of 64 runs is split.
fn memory_for_runs(mut ids: IdAllocator, call: fn(&mut IdAllocator, u32) -> Result<u32, TryError>) {
    for id in (4..4 * 70).step_by(4).chain([600]) {
        unchanged_until_allowed(&mut ids, IdAllocator::clone, |ids| call(ids, id));
    }
}

/// Makes a call with its first allocation failing, then with its second, until it succeeds. An error
/// must change nothing.
fn unchanged_until_allowed<O: PartialEq + Debug, T: Debug>(
    object: &mut O,
    clone: fn(&O) -> O,
    call: impl Fn(&mut O) -> Result<T, TryError>,
) {
    let unchanged = clone(object);
    for number in 1.. {
        let (answer, _) = refusing(number, || call(object));
        if answer.is_ok() {
            assert!(*object != unchanged);
            return;
        }
        assert_eq!(answer.err(), Some(TryError::OutOfMemory));
        assert_eq!(*object, unchanged);
    }
}

/// Makes each allocation of a picture fail.
fn pictures_without_memory() {
    let space = two_held();
    let (picture, made) = refusing(0, || space.layout().svg());
    assert!(made > 0);
    for number in 1..=made {
        let (answer, _) = refusing(number, || space.layout().try_svg());
        assert_eq!(answer, Err(TryError::OutOfMemory));
    }
    assert_eq!(space.layout().try_svg(), Ok(picture));
}

/// Checks that only an allocation for a request has an index.
fn items_without_memory() {
    let expect = |number, index, call: &dyn Fn() -> Result<(), ListError<TryError>>| {
        let error = TryError::OutOfMemory;
        let (answer, _) = refusing(number, call);
        let conflict = None;
        let failure = ListError {
            index,
            error,
            conflict,
        };
        assert_eq!(answer, Err(failure), "{number}");
    };
    for (number, index) in (1..).zip([None, None, None, Some(1), Some(1), Some(1)]) {
        let space = RefCell::new(full_leaf());
        expect(number, index, &|| {
            space.borrow_mut().try_allocate_all(&three_requests())?;
            Ok(())
        });
    }
    // Three leaves and their root are built, of one list or of two.
    for number in 1..=1 + 3 + 1 {
        expect(number, None, &|| {
            AddressAllocator::try_with_held(0, 160, &in_three_leaves()).map(drop)
        });
    }
    for number in 1..=2 + 3 + 1 {
        expect(number, None, &|| {
            AddressAllocator::try_with_free(&in_three_leaves()).map(drop)
        });
    }
}

/// Makes the calls that do not allocate, each of which would fail at its first allocation.
fn no_request_is_made() {
    let (mut space, other) = (two_held(), two_held());
    let devices = DeviceManager::new(0, 0, 0, 64).expect("a manager");
    let held = both();
    let ((), requests) = refusing(1, || {
        assert!(space.held_ranges().eq(held) && space.holds(&held[0]) && space == other);
        assert_eq!((space.held_count(), space.base(), space.end()), (2, 0, 63));
        assert_eq!((space.space().len(), devices.space().len()), (64, 64));
        assert_eq!(space.layout().blocks().count(), 5);
        let exact = request(8, ExactMatch(9));
        assert_eq!(space.conflict(exact), Some(Conflict::Allocated(held[0])));
        assert_eq!(devices.conflict(exact), None);
        let last = space.peek(request(8, LastMatch));
        assert_eq!(last.map(|range| range.end()), Ok(63));
        let error = Error::Overlap(held[0], held[1]);
        let failure = ListError {
            index: None,
            error,
            conflict: None,
        };
        assert!(write!(&mut [0; 500][..], "{failure:^300}{exact:>100.9}").is_ok());
        assert!(devices.devices().rev().eq([]) && devices.device_at(9).is_none());
        assert!(devices.devices_in(..).rev().eq([]));
        assert!(space.held_ranges_in(held[1]).rev().eq([held[1]]));
        assert!(space.gaps().rev().eq(three_gaps().into_iter().rev()));
        assert!(space.gaps_in(..16).eq([three_gaps()[0]]) && space.gaps_in(9..9).eq([]));
        let at = (space.held_at(16), space.gap_at(0));
        assert_eq!(at, (Some(held[0]), Some(three_gaps()[0])));
        let gaps = (space.gap_count(), space.longest_gap(), space.free_len());
        assert_eq!(gaps, (3, 16, 48));
        assert!(space.cmp(&other).is_eq() && space.height() == 1);
        assert_eq!(space.allocate_all(&[]), Ok(Vec::new()));
        assert_eq!(space.free(&held[0]), Ok(()));
        assert_eq!(space.free_counted(&held[1]).0, Ok(()));
        assert_eq!(space.free(&held[1]), Err(Error::ResourceNotAvailable));
        assert_eq!(
            space.allocate(64, 1, FirstMatch).map(|all| all.len()),
            Ok(64)
        );
    });
    assert_eq!(requests, 0);
    let ((), requests) = refusing(1, || {
        let mut ids = IdAllocator::new(5, 6).expect("ids");
        assert_eq!((ids.allocate_id(), ids.peek_id()), (Ok(5), Ok(6)));
        assert!(ids.is_allocated(5) && ids.held_count() == 1);
        assert!(ids.held_ids().rev().eq([5]) && ids.free_count() == 1);
        assert!(ids.held_ids_in(5..).rev().eq([5]));
        assert_eq!(ids.free_id(6), Err(Error::NeverAllocated(6)));
        assert_eq!(ids.allocate_exact(7), Err(Error::OutOfRange(7)));
        assert_eq!(ids.allocate_exact(6), Ok(6));
        assert_eq!(ids.allocate_in(5..=6), Err(Error::ResourceNotAvailable));
        assert_eq!(ids.allocate_ids(1), Err(Error::ResourceNotAvailable));
        assert_eq!((ids.allocate_ids(0), ids.free_count()), (Ok(Vec::new()), 0));
        let wrong = IdAllocator::with_held(5, 6, &[6, 6]);
        assert_eq!(wrong, Err(Error::ResourceNotAvailable));
    });
    assert_eq!(requests, 0);
}

/// The bytes of a leaf and of an inner node.
const LEAF: usize = 280;
const NODE: usize = 464;

/// Returns the bytes of the tree that is built of this number of blocks, which has three levels.
fn built(blocks: usize) -> usize {
    let leaves = blocks.div_ceil(32);
    leaves * LEAF + (leaves.div_ceil(16) + 1) * NODE
}

/// Checks the bytes of calls with lists, of copies and walks, and of a small manager.
fn lists_have_no_spare_bytes() {
    const COUNT: usize = 1000;
    let size = COUNT as u64;
    let (_, leaf) = peak_of(|| AddressAllocator::new(0, 64));
    assert_eq!(leaf, LEAF);
    let held = (0..size).map(|number| RangeInclusive::new(2 * number, 2 * number));
    let held: Vec<_> = held.map(|range| range.expect("a range")).collect();
    let (_, bytes) = peak_of(|| AddressAllocator::with_held(0, 2 * size, &held));
    assert_eq!(
        bytes,
        COUNT * size_of::<RangeInclusive>() + built(2 * COUNT)
    );
    let (copy, bytes) = peak_of(|| AddressAllocator::with_free(&held));
    let holes = (2 * COUNT - 1) * size_of::<RangeInclusive>();
    assert_eq!(bytes, holes + built(2 * COUNT - 1));
    let (_, bytes) = peak_of(|| copy.clone());
    assert_eq!(bytes, built(2 * COUNT - 1));
    // A walk has the tree, two parts of leaves, the span between them, a state and a number.
    let walk = size_of::<usize>() * (1 + 2 * 4 + 3 + 1 + 1);
    assert!(size_of::<HeldRanges>() <= walk && size_of::<HeldRangesIn>() <= walk);
    assert!(size_of::<Gaps>() <= walk && size_of::<GapsIn>() <= walk);
    let mut space = AddressAllocator::new(0, size).expect("a space");
    let requests = [request(1, FirstMatch); COUNT];
    let (ranges, bytes) = peak_of(|| space.allocate_all(&requests));
    assert_eq!(ranges.map(|ranges| ranges.capacity()), Ok(COUNT));
    let items = 2 * size_of::<RangeInclusive>() + size_of::<Constraint>();
    // The last leaf is split when it has 32 blocks and gets another one. It then has 12 of them, and the others stay. A
    // full node that is split at its end keeps 12 children.
    let leaves = (COUNT - 12) / 21;
    let nodes = (leaves - 4) / 12 + 2;
    assert_eq!(bytes, COUNT * items + leaves * LEAF + nodes * NODE);
    let mut ids = IdAllocator::new(0, 2000).expect("ids");
    let (_, bytes) = peak_of(|| ids.allocate_ids(COUNT));
    assert_eq!(bytes, COUNT * size_of::<u32>());
    // Skipped ids are one run.
    let (_, bytes) = peak_of(|| ids.allocate_exact(2 * COUNT as u32));
    assert!(bytes < 100, "{bytes} bytes");
    let (_, bytes) = peak_of(|| ids.clone());
    assert!(bytes < 100, "{bytes} bytes");
    // A copy has 40 bytes for each device in two lists, at most 2 for the leaves and nodes of each
    // list, and at most 16 in the tree.
    let mut devices = DeviceManager::new(0, COUNT as u32, 0, size).expect("a manager");
    let mut reserve = |request: &Constraint| devices.reserve_constraint(*request).is_ok();
    assert!(requests.iter().all(&mut reserve));
    let (_, bytes) = peak_of(|| devices.clone());
    assert!(bytes < 60 * COUNT, "{bytes} bytes");
}

/// Checks that the first entry of a list allocates a leaf of 24 bytes and memory for 4 entries: of 24 bytes for
/// devices, of 16 for their starts, of 8 for freed ids.
fn short_lists_take_few_bytes() {
    let (ids, bytes) = peak_of(one_free_id);
    assert_eq!(bytes, 24 + 4 * 8);
    let (_, bytes) = peak_of(|| ids.clone());
    assert_eq!(bytes, 24 + 8);
    let (_, bytes) =
        peak_of(|| reserve_and_release(|devices| devices.reserve(1, 1, FirstMatch).is_ok()));
    assert_eq!(bytes, LEAF + 3 * 24 + 4 * (24 + 16 + 8));
}

/// Checks that a leaf with fewer than 16 runs of freed ids is joined with one next to it if both have at most 48. Most
/// of a thousand ids are allocated again. So the 63 others are in two leaves or three, and a copy allocates each as for
/// a first entry, and one node.
fn leaves_are_joined() {
    let mut ids = IdAllocator::new(0, 2000).expect("ids");
    assert!(ids.allocate_ids(2000).is_ok());
    let mut even = (0..2000).step_by(2);
    assert!(even.all(|id| ids.free_id(id).is_ok()));
    let mut others = (0..2000).step_by(2).filter(|id| id % 32 != 0);
    assert!(others.all(|id| ids.allocate_exact(id).is_ok()));
    let (_, requests) = refusing(0, || ids.clone());
    assert!(requests <= 3 * FIRST + 1, "{requests}");
}

/// Returns the items in a random order.
fn shuffled<T: Clone>(items: &[T]) -> Vec<T> {
    let mut items = items.to_vec();
    let mut random = 1_u64;
    for last in (1..items.len()).rev() {
        random = random.wrapping_mul(6_364_136_223_846_793_005);
        random = random.wrapping_add(1_442_695_040_888_963_407);
        items.swap(last, (random >> 33) as usize % (last + 1));
    }
    items
}

/// Checks the bytes of a set of freed ids for each of 10^5 ids that are next to none, in three orders.
fn freed_ids_take_few_bytes() {
    const COUNT: u32 = 100_000;
    let ascending: Vec<u32> = (0..COUNT).map(|number| 2 * number).collect();
    let descending = ascending.iter().rev().copied().collect();
    for order in [shuffled(&ascending), descending, ascending] {
        let (_, bytes) = peak_of(|| {
            let mut ids = IdAllocator::new(0, 2 * COUNT).expect("ids");
            assert!((0..=2 * COUNT).all(|id| ids.allocate_id() == Ok(id)));
            assert!(order.iter().all(|id| ids.free_id(*id).is_ok()));
            ids
        });
        assert!(bytes <= 13 * order.len(), "{bytes} bytes");
    }
}

/// Checks the bytes of a space for each of 10^5 ranges, side by side or with a gap after each. Then nine of
/// ten are freed in a random order, and the bytes for each range that is left are checked.
fn ranges_take_few_bytes() {
    const COUNT: usize = 100_000;
    for (distance, most) in [(1, 155), (2, 300)] {
        let mut full = AddressAllocator::new(0, 1 << 30).expect("a space");
        let starts = (0..COUNT as u64).map(|number| distance * number);
        let held = starts.map(|start| full.allocate(1, 1, ExactMatch(start)).expect("it is free"));
        let held: Vec<_> = held.collect();
        let (_, bytes) = peak_of(|| full.clone());
        assert!(10 * bytes <= most * COUNT, "{bytes} bytes");
        let shuffled = shuffled(&held);
        let tens = held.chunks(10);
        let ascending: Vec<_> = tens.flat_map(|ten| ten[1..].iter().copied()).collect();
        for freed in [&shuffled[COUNT / 10..], &ascending] {
            let mut space = full.clone();
            for range in freed {
                assert_eq!(space.free(range), Ok(()));
            }
            let (_, bytes) = peak_of(|| space.clone());
            // A leaf has at least 12 blocks, so at least 6 ranges, and a node at least 5 children.
            let most = (LEAF + NODE / 4) / 6;
            assert!(bytes <= most * COUNT / 10, "{bytes} bytes");
        }
    }
}

fn processes_are_ended() {
    let program = env::current_exe().expect("the program has a path");
    for (row, (requests, _)) in ENDED.iter().enumerate() {
        for number in 1..=*requests {
            let call = format!("{row} {number}");
            // A backtrace would take longer than the test.
            let mut command = Command::new(&program);
            let ended = command.env(ENDING, &call).env("RUST_BACKTRACE", "0");
            let ended = ended.output().expect("the program starts");
            assert_eq!(
                ended.status.signal(),
                Some(ABORTED),
                "row {call}: {ended:?}"
            );
        }
    }
}
