//! The one interpreter of a history's steps: it holds the store that the
//! history runs on and makes every change that is not a call.

use model::{Answer, Call, Store, Time, passes_refusals_1_and_2};
use random::Rng;

use crate::damage::{damage, split_all};
use crate::fragments::Fragments;
use crate::generate::{History, Step, crowd};
use crate::lists::Lists;
use crate::mixed::Mixed;
use crate::ranges::Ranges;
use crate::rough::roughen;
use crate::writes::Batches;

/// A history and the store that it runs on.
pub struct Walk {
    pub history: History,
    pub store: Store,
    /// Events and calls so far.
    pub step: usize,
    lists: Option<(Ranges, Lists, Batches, Mixed)>,
    fragments: Option<Fragments>,
    rough: Option<Rough>,
}

/// Bytes and lengths changed at random between the steps.
struct Rough {
    rng: Rng,
    /// The store as it was, and for how many calls the changed one still
    /// stands: kept where refusal 1 or 2 meets it.
    undo: Option<(Store, u64)>,
    /// Calls refused by 2 one after another.
    refused: u32,
}

/// Stores with a larger image are not changed at random.
const LARGEST_ROUGH_IMAGE: usize = 2 << 20;
/// A store that refusal 2 meets so often is made afresh.
const REFUSED_OFTEN: u32 = 4;

/// What a step asks of the caller.
pub enum Event {
    /// A call to be run on the store.
    Call(Call),
    /// The store was changed without a call.
    Changed(Change),
}

/// A change that is not a call: the head, the books and the maps may all be
/// other, of the image the bytes that are named, or all of it.
pub struct Change {
    pub name: Option<&'static str>,
    image: Vec<(usize, u8)>,
    whole: bool,
}

impl Change {
    fn of_records() -> Self {
        Self {
            name: None,
            image: Vec::new(),
            whole: false,
        }
    }

    fn whole(name: Option<&'static str>) -> Self {
        Self {
            name,
            image: Vec::new(),
            whole: true,
        }
    }

    /// Make the change to a copy of the store as it was.
    pub fn copy(&self, from: &Store, to: &mut Store) {
        if self.whole {
            to.clone_from(from);
            return;
        }
        to.copy_records_from(from);
        for &(at, byte) in &self.image {
            to.image[at] = byte;
        }
    }
}

/// The store that the next call is made for, which passes refusals 1 and 2,
/// and for how many calls a changed one still stands in its place.
fn aimed<'a>(rough: &'a mut Option<Rough>, store: &'a Store) -> (&'a Store, Option<&'a mut u64>) {
    match rough.as_mut().and_then(|rough| rough.undo.as_mut()) {
        Some((store, left)) => (store, Some(left)),
        None => (store, None),
    }
}

impl Walk {
    /// The history alone, as it is recorded: without many reads in one call,
    /// batches of writes, lists of stretches and archive writes.
    pub fn new(history: History) -> Self {
        Self {
            store: history.blank(),
            history,
            step: 0,
            lists: None,
            fragments: None,
            rough: None,
        }
    }

    /// History `number` of `seed` with lists of stretches and many reads in one
    /// call in between, which leave its own calls as they are; and in some
    /// histories with batches of writes, in some with archive writes, and in some
    /// with free blocks brought into short runs, after which its calls are others.
    pub fn with_lists(seed: u64, number: u64) -> Self {
        let mut walk = Self::new(History::new(seed, number));
        walk.lists = Some((
            Ranges::new(seed, number),
            Lists::new(seed, number),
            Batches::new(seed, number),
            Mixed::new(seed, number),
        ));
        walk.fragments = Some(Fragments::new(seed, number));
        walk
    }

    /// The same with bytes and lengths changed at random on the way.
    pub fn rough(seed: u64, number: u64) -> Self {
        let mut walk = Self::with_lists(seed, number);
        walk.rough = Some(Rough {
            rng: Rng::new(!seed ^ number << 20),
            undo: None,
            refused: 0,
        });
        walk
    }

    /// The next call or change, or `None` at the history's end. The caller
    /// runs a call on the store.
    pub fn event(&mut self) -> Option<Event> {
        if let Some(change) = self.roughen() {
            self.step += 1;
            return Some(Event::Changed(change));
        }
        if let Some(change) = self.fragment() {
            self.step += 1;
            return Some(Event::Changed(change));
        }
        if let Some(call) = self.short_call().or_else(|| self.listed()) {
            self.step += 1;
            return Some(Event::Call(call));
        }
        let (store, left) = aimed(&mut self.rough, &self.store);
        let step = self.history.next(store)?;
        self.step += 1;
        if let Step::Call(call) = step {
            if let Some(left) = left {
                *left -= 1;
            }
            return Some(Event::Call(call));
        }
        let undone = self.undo();
        let (rng, store) = (&mut self.history.rng, &mut self.store);
        let mut change = Change::of_records();
        match step {
            Step::Call(_) => unreachable!("returned above"),
            Step::Crowd => crowd(rng, store),
            Step::Split => split_all(rng, store),
            Step::Damage => {
                if let Some(damage) = damage(rng, store) {
                    change.name = Some(damage.name);
                    change.image = damage.image;
                }
            }
        }
        change.whole = undone;
        Some(Event::Changed(change))
    }

    /// The next call of a history whose other steps are left out.
    pub fn call(&mut self) -> Option<Call> {
        loop {
            self.step += 1;
            if let Some(call) = self.listed() {
                return Some(call);
            }
            if let Step::Call(call) = self.history.next(&self.store)? {
                return Some(call);
            }
        }
    }

    /// What the model answered: a store that is refused again and again is
    /// made afresh.
    pub fn answered(&mut self, answer: &Answer) {
        if let Some(rough) = &mut self.rough {
            rough.refused = match answer.number {
                2 if rough.undo.is_none() => rough.refused + 1,
                _ => 0,
            };
            if rough.refused == REFUSED_OFTEN {
                self.history.renew();
            }
        }
    }

    /// Change bytes or lengths, or take such a change back.
    fn roughen(&mut self) -> Option<Change> {
        let rough = self.rough.as_mut()?;
        if rough.undo.as_ref().is_some_and(|(_, left)| *left == 0) {
            self.undo();
            return Some(Change::whole(None));
        }
        let fit = rough.undo.is_none()
            && self.history.begun()
            && self.store.image.len() <= LARGEST_ROUGH_IMAGE
            && rough.rng.percent(12);
        if !fit {
            return None;
        }
        let before = self.store.clone();
        roughen(&mut rough.rng, &mut self.store);
        if !passes_refusals_1_and_2(&self.store) {
            rough.undo = Some((before, rough.rng.between(1, 3)));
            return Some(Change::whole(Some("bytes or lengths, refused by 1 or 2")));
        }
        Some(Change::whole(Some("bytes or lengths")))
    }

    /// Bring the free blocks into short runs, where the walk has that, on a store
    /// that passes refusals 1 and 2.
    fn fragment(&mut self) -> Option<Change> {
        let fragments = self.fragments.as_mut()?;
        let rough = self.rough.as_ref();
        let changed = rough.is_some_and(|rough| rough.undo.is_some());
        if changed || !fragments.wants(&self.history) || !passes_refusals_1_and_2(&self.store) {
            return None;
        }
        fragments.change(&mut self.store);
        let mut change = Change::of_records();
        change.name = Some("free blocks in short runs");
        Some(change)
    }

    /// One of the calls that a history seldom makes, on a store that refusal 1
    /// or 2 meets.
    fn short_call(&mut self) -> Option<Call> {
        let Rough { rng, undo, .. } = self.rough.as_mut()?;
        let (_, left) = undo.as_mut()?;
        if !rng.percent(40) {
            return None;
        }
        *left -= 1;
        let time = Time {
            seconds: rng.below(1 << 40),
            nanoseconds: rng.below(1_000_000_000),
        };
        Some(match rng.below(4) {
            0 => Call::Fresh {
                uuid: vec![rng.next_u64() as u8; rng.pick(&[15, 16, 16, 16, 17])],
                reserved: rng.below(self.history.blocks() + 2),
            },
            1 => Call::Enter {
                object: rng.pick(&[0, 2, 7, 9, 1 << 40, u64::MAX]),
                time,
            },
            2 => Call::Settle,
            _ => Call::Fill,
        })
    }

    /// A list of stretches, many reads, a batch of writes, an archive write or a
    /// write beside one, now and then, where the walk has them. The stretches come
    /// first: so the others are made as often as without them, and are the same.
    fn listed(&mut self) -> Option<Call> {
        let (ranges, lists, batches, mixed) = self.lists.as_mut()?;
        let (store, left) = aimed(&mut self.rough, &self.store);
        let stretches = ranges.next(&self.history, store);
        let looks = stretches.or_else(|| lists.next(&self.history, store));
        let batch = looks.or_else(|| batches.next(&self.history, store));
        let call = batch.or_else(|| mixed.next(&self.history, store))?;
        if let Some(left) = left {
            *left -= 1;
        }
        Some(call)
    }

    /// Take the standing change back, if there is one.
    fn undo(&mut self) -> bool {
        let undo = self.rough.as_mut().and_then(|rough| rough.undo.take());
        let undone = undo.is_some();
        if let Some((store, _)) = undo {
            self.store = store;
        }
        undone
    }
}
