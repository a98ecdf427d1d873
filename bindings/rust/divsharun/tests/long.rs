// SPDX-License-Identifier: Apache-2.0 OR BSD-3-Clause
//! Guards against a fault that only many calls reach, such as one of a tree with many leaves.
//!
//! Random calls of every kind are compared with plain lists, and large spaces are filled and emptied in
//! hard orders. `DIVSHARUN_SEED=number cargo test --test long` repeats a run with its seed.

mod draw;
mod model;
#[cfg(feature = "serde")]
mod packed;
mod refusing;

use divsharun::AllocPolicy::{ExactMatch, FirstMatch, LastMatch};
use divsharun::{
    AddressAllocator, Constraint, DeviceManager, DeviceSlot, Error, IdAllocator, IdRequest,
    RangeInclusive, Result, TryError,
};
use draw::Draw;
use model::{refused, Ids, Model, Scale};
use refusing::refusing;
use std::collections::BTreeMap;
use std::fmt::Debug;
use std::hash::{BuildHasher, RandomState};

/// Returns the seed of the environment, or a new one. It is printed if the test fails.
fn seed() -> u64 {
    let given = std::env::var("DIVSHARUN_SEED").map(|seed| seed.parse().unwrap());
    let seed = given.unwrap_or_else(|_| RandomState::new().hash_one(0));
    println!("DIVSHARUN_SEED={seed}");
    seed
}

/// Makes a `try_` call, in some cases first with a failed allocation, whose error must change nothing.
fn tried<O: Clone + PartialEq + Debug, T, E: Into<TryError>>(
    object: &mut O,
    draw: &mut Draw,
    call: impl Fn(&mut O) -> std::result::Result<T, E>,
) -> Result<T> {
    if draw.below(8) == 0 {
        let before = object.clone();
        let (answer, _) = refusing(1 + draw.below(4), || call(object));
        match answer.map_err(Into::into) {
            Err(TryError::OutOfMemory) => assert_eq!(*object, before),
            other => return refused(other),
        }
    }
    refused(call(object))
}

/// Takes the items of an iterator from random ends, and compares them with a list.
fn expect_list<T: Copy + PartialEq + Debug>(
    mut items: impl DoubleEndedIterator<Item = T>,
    list: &[T],
    draw: &mut Draw,
) {
    let mut want = list.iter().copied();
    while want.len() > 0 {
        match draw.below(8) {
            0 => assert_eq!(items.nth(2), want.nth(2)),
            1..4 => assert_eq!(items.next(), want.next()),
            4 => assert_eq!(items.nth_back(1), want.nth_back(1)),
            _ => assert_eq!(items.next_back(), want.next_back()),
        }
    }
    assert_eq!((items.next(), items.next_back()), (None, None));
}

/// Saves an object in both formats and reads it. Reads damaged copies, which must be refused or read as
/// an object that is saved and read as well, in memory of the order of their length.
#[cfg(feature = "serde")]
fn restore<O>(object: &mut O, draw: &mut Draw)
where
    O: serde::Serialize + serde::de::DeserializeOwned + PartialEq + Debug,
{
    let of_text = |text: &[u8]| serde_json::from_slice::<O>(text).ok();
    let of_bytes = |bytes: &[u8]| packed::from_bytes::<O>(bytes.iter().copied()).ok();
    let text = serde_json::to_vec(object).unwrap();
    let bytes = packed::to_bytes(object).unwrap();
    for number in 0..16 {
        let is_text = number % 2 == 0;
        let damaged = damaged(if is_text { &text } else { &bytes }, is_text, draw);
        let read = || match is_text {
            true => of_text(&damaged),
            false => of_bytes(&damaged),
        };
        let (read, peak) = refusing::peak_of(read);
        assert!(peak <= 6 * damaged.len() + 8192, "{peak} bytes");
        if let Some(read) = read {
            let text = serde_json::to_vec(&read).unwrap();
            let bytes = packed::to_bytes(&read).unwrap();
            assert_eq!(
                (of_text(&text), of_bytes(&bytes)),
                (of_bytes(&bytes), Some(read))
            );
        }
    }
    let again = [of_text(&text), of_bytes(&bytes)].map(Option::unwrap);
    assert!(again[0] == *object && again[1] == *object);
    [*object, _] = again;
}

/// Cuts, repeats or replaces a part of a saved object.
#[cfg(feature = "serde")]
fn damaged(saved: &[u8], is_text: bool, draw: &mut Draw) -> Vec<u8> {
    const PIECES: [&str; 12] = [
        "",
        "0",
        "7",
        "1",
        "null",
        "{}",
        "]",
        "\"",
        "18446744073709551615",
        "Free",
        "1e999",
        "-1",
    ];
    let first = draw.below(saved.len() as u64) as usize;
    let length = [0, 1, 1, 8, 40][draw.below(5) as usize];
    let mut last = saved.len().min(first + length);
    let mut piece = saved[first..last].repeat(draw.below(3) as usize);
    if is_text && saved[first].is_ascii_digit() {
        let digits = saved[first..].split(|byte| !byte.is_ascii_digit());
        last = first + digits.map(<[u8]>::len).next().unwrap();
    }
    match draw.below(8) {
        0..4 if is_text => piece = PIECES[draw.below(12) as usize].into(),
        4 if is_text => piece = vec![b'9'; 400],
        0..3 => piece = vec![draw.below(3) as u8 * 127; last - first],
        _ => {}
    }
    [&saved[..first], &piece, &saved[last..]].concat()
}

#[cfg(not(feature = "serde"))]
fn restore<O>(_: &mut O, _: &mut Draw) {}

/// Returns a random request near a space. Many name an allocated range or a part of it.
fn request_near(model: &Model, draw: &mut Draw) -> Constraint {
    let lowest = model.base.saturating_sub(3);
    let near = |draw: &mut Draw| lowest.saturating_add(draw.below(model.width + 6));
    let most = [3, 3, 3, 9, 9, model.width][draw.below(6) as usize];
    let bits = [3, 3, 3, 3, 8][draw.below(5) as usize];
    let mut align = 1 << draw.below(bits);
    let mut size = 1 + draw.below(most);
    let policy = match draw.below(8) {
        0..3 => FirstMatch,
        3..6 => LastMatch,
        6 => {
            let key = range_near(model, draw);
            (size, align) = (key.len() + draw.below(8) / 7, 1);
            ExactMatch(key.start())
        }
        _ => {
            let start = near(draw);
            ExactMatch(start - start % align)
        }
    };
    let request = Constraint::new(size, align, policy).unwrap();
    let (start, length) = (near(draw), draw.below(model.width));
    let window = match draw.below(4) {
        0 => request.within(start..),
        1 => request.within(start..=start.saturating_add(length)),
        _ => Ok(request),
    };
    window.unwrap()
}

/// Returns an allocated range, or in some cases another range.
fn range_near(model: &Model, draw: &mut Draw) -> RangeInclusive {
    let start = model.base + draw.below(model.width);
    let other = RangeInclusive::new(start, start.saturating_add(draw.below(3))).unwrap();
    let number = draw.below(model.held.len() as u64 * 9 / 8 + 1) as usize;
    model.held.get(number).copied().unwrap_or(other)
}

/// Returns an id of a range, or one next to it.
fn id_near(ids: &Ids, draw: &mut Draw) -> u32 {
    let place = draw.below(u64::from(ids.last - ids.first) + 3) as u32;
    (ids.first - 1).wrapping_add(place)
}

/// An object and its model.
trait Beside {
    /// Makes a random call that frees, allocates or moves.
    fn change(&mut self, is_freed: bool, draw: &mut Draw);
    /// Makes random queries.
    fn query(&self, draw: &mut Draw);
    /// Compares all items, and replaces the object by an equal one.
    fn compare(&mut self, draw: &mut Draw);
}

/// Makes random calls. Their share that frees changes, so that the object becomes full and empty.
fn run(mut object: impl Beside, steps: u64, draw: &mut Draw) {
    for step in 0..steps {
        let share = [3, 8, 11, 6, 15][(step / 2000 % 5) as usize];
        object.change(draw.below(16) < share, draw);
        object.query(draw);
        if step % 300 == 0 {
            object.compare(draw);
        }
    }
}

fn run_all(steps: u64, draw: &mut Draw) {
    for (base, width, scale) in [
        (0, 64, Scale(0)),
        (1000, 500, Scale(0)),
        (u64::MAX - 799, 800, Scale(0)),
        (5, 300, Scale(50)),
        (40, 64, Scale(56)),
    ] {
        run(Space::new(base, width, scale), steps, draw);
    }
    for (first, last) in [(7, 1206), (u32::MAX - 300, u32::MAX)] {
        run(Manager::new(first, first + 160), steps, draw);
        run(Numbers::new(first, last), steps, draw);
    }
}

/// A space. The list of its model is sorted.
struct Space {
    space: AddressAllocator,
    model: Model,
    scale: Scale,
}

impl Space {
    fn new(base: u64, width: u64, scale: Scale) -> Space {
        Space {
            space: AddressAllocator::new(base << scale.0, width << scale.0).unwrap(),
            model: Model::wide(base, width),
            scale,
        }
    }

    fn far(&self, ranges: impl IntoIterator<Item = RangeInclusive>) -> Vec<RangeInclusive> {
        let ranges = ranges.into_iter();
        ranges.map(|range| self.scale.range(range)).collect()
    }

    /// Allocates several ranges or none.
    fn allocate_list(&mut self, draw: &mut Draw) {
        let (scale, mut model) = (self.scale, self.model.clone());
        let count = draw.below(16);
        let requests: Vec<_> = (0..count).map(|_| request_near(&model, draw)).collect();
        let answers = (0..).map(Some).zip(&requests).map(|(index, request)| {
            let range = model.allocate(*request);
            range.iter().for_each(|range| model.hold(*range));
            let answer = scale.answer(range);
            answer.map_err(|error| (index, error))
        });
        let want = answers.collect::<std::result::Result<Vec<_>, _>>();
        let far = requests.iter().map(|request| scale.request(*request));
        let far: Vec<_> = far.collect();
        if draw.below(2) == 0 {
            let answer = self.space.allocate_all(&far);
            assert_eq!(
                answer.map_err(|failure| (failure.index, failure.error)),
                want
            );
        } else {
            let answer = tried(&mut self.space, draw, |space| space.try_allocate_all(&far));
            assert_eq!(answer, want.clone().map_err(|(_, error)| error));
        }
        if want.is_ok() {
            self.model = model;
        }
    }
}

impl Beside for Space {
    fn change(&mut self, is_freed: bool, draw: &mut Draw) {
        let request = request_near(&self.model, draw);
        let key = range_near(&self.model, draw);
        let (scale, form) = (self.scale, draw.below(6));
        let (far, far_key) = (scale.request(request), scale.range(key));
        let number = self.model.held.binary_search(&key);
        let not_held = Error::ResourceNotAvailable;
        let (space, model) = (&mut self.space, &mut self.model);
        if is_freed {
            let want = number.map(|number| _ = model.held.remove(number));
            let answer = match form {
                0..3 => space.free(&far_key),
                _ => space.free_counted(&far_key).0,
            };
            assert_eq!(answer, want.or(Err(not_held)));
            return;
        }
        match draw.below(8) {
            0 => {
                let start = model.base + draw.below(model.width);
                let exact = Constraint::new(key.len(), 1, ExactMatch(start)).unwrap();
                let request = if form < 3 { request } else { exact };
                let number = number.or(Err(not_held));
                let want = number.and_then(|number| model.move_to(number, request));
                let (from, start) = (&far_key, start << scale.0);
                let answer = match form {
                    0..2 => space.move_constraint(from, far),
                    2 => tried(space, draw, |space| space.try_move_constraint(from, far)),
                    3..5 => space.move_range(from, start),
                    _ => tried(space, draw, |space| space.try_move_range(from, start)),
                };
                assert_eq!(answer, scale.answer(want), "{far_key} to {request}");
                model.held.sort();
            }
            1 => self.allocate_list(draw),
            _ => {
                let want = model.allocate(request);
                let before = space.clone();
                assert_eq!(space.peek(far), scale.answer(want), "{far}");
                assert!(before == *space);
                want.iter().for_each(|range| model.hold(*range));
                let (size, align, policy) = (far.size(), far.align(), far.policy());
                let is_whole = far.window().is_none();
                let answer = match form {
                    0 if is_whole => space.allocate(size, align, policy),
                    1 if is_whole => tried(space, draw, |to| to.try_allocate(size, align, policy)),
                    2 if is_whole => space.allocate_counted(size, align, policy).0,
                    3 => space.allocate_constraint_counted(far).0,
                    4 => space.allocate_constraint(far),
                    _ => tried(space, draw, |space| space.try_allocate_constraint(far)),
                };
                assert_eq!(answer, scale.answer(want), "{far}");
            }
        }
    }

    fn query(&self, draw: &mut Draw) {
        let (space, model, scale) = (&self.space, &self.model, self.scale);
        let request = request_near(model, draw);
        let key = range_near(model, draw);
        let far = |range: Option<RangeInclusive>| range.map(|range| scale.range(range));
        let is_held = model.held.binary_search(&key).is_ok();
        assert_eq!(space.holds(&scale.range(key)), is_held);
        let conflict = space.conflict(scale.request(request));
        let want = model.conflict(request);
        assert_eq!(conflict, want.map(|want| scale.conflict(want)), "{request}");
        let conflict = space.move_conflict(&scale.range(key), scale.request(request));
        let number = model.held.binary_search(&key);
        let want = number
            .ok()
            .and_then(|number| model.move_conflict(number, request));
        assert_eq!(
            conflict,
            want.map(|want| scale.conflict(want)),
            "{key} to {request}"
        );
        let has = |range: &RangeInclusive| range.contains_address(key.end());
        let at = key.end() << scale.0;
        assert_eq!(space.held_at(at), far(model.held.iter().copied().find(has)));
        let gaps: Vec<_> = model.gaps().collect();
        assert_eq!(space.gap_at(at), far(gaps.iter().copied().find(has)));
        assert_eq!(space.held_count(), model.held.len() as u64);
        assert_eq!(space.gap_count(), gaps.len() as u64);
        let lengths = || gaps.iter().map(|gap| gap.len() << scale.0);
        assert_eq!(space.free_len(), lengths().sum::<u64>());
        assert_eq!(space.longest_gap(), lengths().max().unwrap_or(0));
        let far_key = scale.range(key);
        let far_gaps = gaps.iter().map(|gap| scale.range(*gap));
        let parts = far_gaps.filter_map(|gap| gap.intersection(&far_key));
        let longest = parts.rev().max_by_key(|part| part.len());
        assert_eq!(space.longest_gap_in(far_key), longest);

        if let Some(window) = request.window() {
            let meets = |range: &RangeInclusive| range.overlaps(&window);
            let far_window = scale.range(window);
            let held = self.far(model.held.iter().copied().filter(meets));
            expect_list(space.held_ranges_in(far_window), &held, draw);
            let gaps = self.far(gaps.into_iter().filter(meets));
            expect_list(space.gaps_in(far_window), &gaps, draw);
        }
    }

    fn compare(&mut self, draw: &mut Draw) {
        let held = self.far(self.model.held.iter().copied());
        let gaps = self.far(self.model.gaps());
        expect_list(self.space.held_ranges(), &held, draw);
        expect_list(self.space.gaps(), &gaps, draw);
        let mut blocks = [&held[..], &gaps].concat();
        blocks.sort();
        let layout = self.space.layout();
        expect_list(layout.blocks().map(|block| block.range), &blocks, draw);
        let (base, size) = (self.space.base(), self.model.width << self.scale.0);
        let build = |(): &mut ()| AddressAllocator::try_with_held(base, size, &held);
        let built = tried(&mut (), draw, build);
        assert_eq!(built.as_ref(), Ok(&self.space));
        if !gaps.is_empty() {
            let made = tried(&mut (), draw, |()| AddressAllocator::try_with_free(&gaps)).unwrap();
            let hole = |pair: &[RangeInclusive]| {
                RangeInclusive::new(pair[0].end() + 1, pair[1].start() - 1).unwrap()
            };
            let holes: Vec<_> = gaps.windows(2).map(hole).collect();
            expect_list(made.gaps(), &gaps, draw);
            expect_list(made.held_ranges(), &holes, draw);
        }
        let copied = tried(&mut self.space, draw, |space| space.try_clone());
        assert_eq!(copied.as_ref(), Ok(&self.space));
        match draw.below(3) {
            0 => self.space = built.unwrap(),
            1 => self.space = copied.unwrap(),
            _ => restore(&mut self.space, draw),
        }
    }
}

/// A manager of devices in a space whose list is sorted.
struct Manager {
    devices: DeviceManager,
    model: Model,
    ids: Ids,
    slots: BTreeMap<u32, RangeInclusive>,
}

impl Manager {
    fn new(first: u32, last: u32) -> Manager {
        let (base, width) = (9, 600);
        Manager {
            devices: DeviceManager::new(first, last, base, width).unwrap(),
            model: Model::wide(base, width),
            ids: Ids::new(first, last),
            slots: BTreeMap::new(),
        }
    }

    fn slots(&self) -> impl Iterator<Item = DeviceSlot> + '_ {
        let slots = self.slots.iter();
        slots.map(|(&id, &range)| DeviceSlot { id, range })
    }
}

impl Beside for Manager {
    fn change(&mut self, is_freed: bool, draw: &mut Draw) {
        let (id, request) = (id_near(&self.ids, draw), request_near(&self.model, draw));
        let (size, align, policy) = (request.size(), request.align(), request.policy());
        let form = draw.below(8);
        let devices = &mut self.devices;
        if is_freed {
            let range = self.slots.remove(&id);
            let answer = match form {
                0..3 => devices.release(id),
                _ => tried(devices, draw, |devices| devices.try_release(id)),
            };
            assert_eq!(answer, range.map(drop).ok_or(Error::NeverAllocated(id)));
            self.model.held.retain(|held| Some(*held) != range);
            assert_eq!(self.ids.release(id).is_ok(), range.is_some());
            return;
        }
        if form > 5 {
            let range = self
                .slots
                .get(&id)
                .copied()
                .ok_or(Error::NeverAllocated(id));
            let place = |range| self.model.held.iter().position(|held| *held == range);
            let mut model = self.model.clone();
            let want = range.and_then(|range| model.move_to(place(range).unwrap(), request));
            let answer = match form {
                6 => devices.move_constraint(id, request),
                _ => tried(devices, draw, |to| to.try_move_constraint(id, request)),
            };
            assert_eq!(answer, want, "{id} {request}");
            if let Ok(range) = want {
                self.model = model;
                self.slots.insert(id, range);
            }
            return;
        }
        let is_whole = request.window().is_none();
        let which = match form {
            4 => IdRequest::Exact(id),
            5 => IdRequest::LowestIn(id, id_near(&self.ids, draw)),
            _ => IdRequest::Lowest,
        };
        let answer = match form {
            0 if is_whole => devices.reserve(size, align, policy),
            1 if is_whole => tried(devices, draw, |to| to.try_reserve(size, align, policy)),
            2 => tried(devices, draw, |to| to.try_reserve_constraint(request)),
            3 => devices.reserve_constraint(request),
            _ if draw.below(2) == 0 => devices.reserve_with_id(which, request),
            _ => tried(devices, draw, |to| to.try_reserve_with_id(which, request)),
        };
        let mut ids = self.ids.clone();
        let id = match which {
            IdRequest::Lowest => ids.allocate(),
            IdRequest::LowestIn(low, high) => ids.allocate_in(low, high),
            IdRequest::Exact(id) => ids.allocate_exact(id),
        };
        let range = |id| Ok((id, self.model.allocate(request)?));
        let want = id.and_then(range);
        assert_eq!(answer, want.map(|(id, range)| DeviceSlot { id, range }));
        if let Ok((id, range)) = want {
            self.ids = ids;
            self.model.hold(range);
            self.slots.insert(id, range);
        }
    }

    fn query(&self, draw: &mut Draw) {
        let (id, request) = (id_near(&self.ids, draw), request_near(&self.model, draw));
        assert_eq!(self.devices.slot(id), self.slots.get(&id).copied());
        assert_eq!(self.devices.device_count(), self.slots.len() as u64);
        assert_eq!(
            self.devices.addresses().held_count(),
            self.slots.len() as u64
        );
        assert!(self.devices.ids().held_ids().eq(self.slots.keys().copied()));
        assert_eq!(self.devices.conflict(request), self.model.conflict(request));
        let address = range_near(&self.model, draw).start();
        let has = |device: &DeviceSlot| device.range.contains_address(address);
        let at = self.slots().find(has);
        assert_eq!(self.devices.device_at(address), at);
    }

    fn compare(&mut self, draw: &mut Draw) {
        let slots: Vec<_> = self.slots().collect();
        expect_list(self.devices.devices(), &slots, draw);
        let copied = tried(&mut self.devices, draw, |devices| devices.try_clone());
        assert_eq!(copied.as_ref(), Ok(&self.devices));
        match draw.below(2) {
            0 => self.devices = copied.unwrap(),
            _ => restore(&mut self.devices, draw),
        }
    }
}

/// An allocator of ids.
struct Numbers {
    ids: IdAllocator,
    model: Ids,
}

impl Numbers {
    fn new(first: u32, last: u32) -> Numbers {
        Numbers {
            ids: IdAllocator::new(first, last).unwrap(),
            model: Ids::new(first, last),
        }
    }
}

impl Beside for Numbers {
    fn change(&mut self, is_freed: bool, draw: &mut Draw) {
        let (id, end) = (id_near(&self.model, draw), id_near(&self.model, draw));
        let (kind, is_tried) = (draw.below(8), draw.below(2) == 1);
        let Numbers { ids, model } = self;
        if !is_freed && kind == 2 {
            let count = draw.below(12) as usize;
            let answer = match is_tried {
                false => ids.allocate_ids(count),
                true => tried(ids, draw, |ids| ids.try_allocate_ids(count)),
            };
            assert_eq!(answer, model.allocate_ids(count));
            return;
        }
        let answer = match (kind, is_tried) {
            (_, false) if is_freed => ids.free_id(id),
            (_, true) if is_freed => tried(ids, draw, |ids| ids.try_free_id(id)),
            (0, false) => ids.allocate_exact(id),
            (0, true) => tried(ids, draw, |ids| ids.try_allocate_exact(id)),
            (1, false) => ids.allocate_in(id..=end),
            (1, true) => tried(ids, draw, |ids| ids.try_allocate_in(id..=end)),
            _ => ids.allocate_id(),
        };
        let want = match kind {
            _ if is_freed => model.release(id),
            0 => model.allocate_exact(id),
            1 => model.allocate_in(id, end),
            _ => model.allocate(),
        };
        assert_eq!(answer, want);
    }

    fn query(&self, draw: &mut Draw) {
        let id = id_near(&self.model, draw);
        assert_eq!(self.ids.is_allocated(id), self.model.held.contains(&id));
        assert_eq!(self.ids.peek_id(), self.model.peek());
        let (first, last) = (self.ids.range_base(), self.ids.range_end());
        let count = self.model.held.len() as u64;
        assert_eq!(self.ids.held_count(), count);
        assert_eq!(self.ids.free_count(), u64::from(last - first) + 1 - count);
    }

    fn compare(&mut self, draw: &mut Draw) {
        let held: Vec<_> = self.model.held.iter().copied().collect();
        expect_list(self.ids.held_ids(), &held, draw);
        let (first, last) = (self.ids.range_base(), self.ids.range_end());
        let build = |(): &mut ()| IdAllocator::try_with_held(first, last, &held);
        let built = tried(&mut (), draw, build);
        expect_list(built.unwrap().held_ids(), &held, draw);
        let copied = tried(&mut self.ids, draw, |ids| ids.try_clone());
        assert_eq!(copied.as_ref(), Ok(&self.ids));
        match draw.below(2) {
            0 => self.ids = copied.unwrap(),
            _ => restore(&mut self.ids, draw),
        }
    }
}

#[test]
fn calls_are_those_of_plain_lists() {
    run_all(125_000, &mut Draw(seed()));
}

#[test]
fn threads_share_nothing() {
    let seed = seed();
    std::thread::scope(|scope| {
        for number in 0..64 {
            scope.spawn(move || run_all(200, &mut Draw(seed.wrapping_add(number))));
        }
    });
}

/// The number of ranges of a large space.
const MANY: u64 = 100_000;

/// Compares a large space with its allocated ranges, and restores it.
fn expect_ranges(space: &mut AddressAllocator, held: &[RangeInclusive]) {
    let mut draw = Draw(held.len() as u64);
    let mut model = Model::wide(0, space.end() + 1);
    model.held = held.to_vec();
    let gaps: Vec<_> = model.gaps().collect();
    expect_list(space.held_ranges(), held, &mut draw);
    expect_list(space.gaps(), &gaps, &mut draw);
    let longest = gaps.iter().map(RangeInclusive::len).max();
    assert_eq!(space.longest_gap(), longest.unwrap_or(0));
    // A leaf has 12 to 32 blocks, and a node 5 to 16 children. The root can have fewer.
    let (height, blocks) = (space.height() as u32, (held.len() + gaps.len()) as u64);
    assert!(height == 1 || 24 * 5_u64.pow(height - 2) <= blocks);
    assert!(blocks <= 32 * 16_u64.pow(height - 1));
    #[cfg(feature = "serde")]
    {
        let bytes = packed::to_bytes(space).unwrap();
        *space = packed::from_bytes(bytes).unwrap();
    }
}

/// Allocates every address or every second one, and frees every 31st range, every second one and the
/// others, each time upward, downward or at both ends in turn.
#[test]
fn large_spaces_are_filled_and_emptied() {
    let orders: [fn(u64) -> u64; 3] = [
        |number| number,
        |number| MANY - 1 - number,
        |number| [number / 2, MANY - 1 - number / 2][number as usize % 2],
    ];
    for (order, stride) in orders.iter().flat_map(|order| [(order, 1), (order, 2)]) {
        let mut space = AddressAllocator::new(0, stride * MANY).unwrap();
        let range = |number| RangeInclusive::from_start_len(number * stride, 1).unwrap();
        for held in (0..MANY).map(order).map(range) {
            assert_eq!(space.allocate(1, 1, ExactMatch(held.start())), Ok(held));
        }
        let mut left: Vec<_> = (0..MANY).map(range).collect();
        expect_ranges(&mut space, &left);
        for every in [31, 2, 1] {
            for held in (0..MANY).map(order).map(range) {
                if left.binary_search(&held).is_ok_and(|at| at % every == 0) {
                    assert_eq!(space.free(&held), Ok(()));
                }
            }
            let mut number = 0;
            left.retain(|_| (number % every != 0, number += 1).0);
            expect_ranges(&mut space, &left);
        }
        assert_eq!(space.longest_gap(), stride * MANY);
    }
}
