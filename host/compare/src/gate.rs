//! A library held against the model: number, count, whether the call was
//! refused, output buffer and all seven buffers of the store after every call,
//! on every store, and no difference forgiven. A history goes on after any
//! refusal.

use std::collections::BTreeMap;
use std::fmt::Write;
use std::panic::{AssertUnwindSafe, catch_unwind};
use std::sync::{Arc, LazyLock};
use std::time::Duration;

use model::{Answer, Call, Store, Volume, passes_refusals_1_and_2};

use crate::alone::{alone, bad_lists, calls, sounds};
use crate::archive::archives;
use crate::broken::broken_stores;
use crate::edges::{Edge, edges, large, pairs, wide};
use crate::fragments;
use crate::guard::{Guarded, Side};
use crate::library::Library;
use crate::run::same_images;
use crate::runs::{self, Cases};
use crate::shrink::{describe, minimise};
use crate::walk::{Event, Walk};

/// The seed of the gate's histories.
pub const SEED: u64 = 31;
/// Calls of histories that the gate makes.
pub const HISTORY_CALLS: u64 = 25_000;
/// Of those, before the calls of [`pairs`] and the large stores.
const EARLY_CALLS: u64 = 2_000;
/// Calls of histories between guard pages, on each side.
const GUARDED_CALLS: u64 = 1_900;

/// Random calls on three allocation groups.
const WIDE_CALLS: usize = 300;

/// How long a failing case is made smaller.
const SHRINKING: Duration = Duration::from_secs(10);

/// A call on which library and model part.
#[derive(Debug)]
pub struct Parted {
    pub origin: String,
    pub reason: String,
    /// How many calls the library was asked, with this one.
    pub calls: u64,
    pub store: Store,
    pub call: Call,
}

impl Parted {
    pub fn report(&self) -> String {
        let Self { origin, reason, .. } = self;
        let case = describe(&self.store, &self.call);
        format!("call {}: {origin}: {reason}\n{case}", self.calls)
    }

    /// The same with what the difference does not need taken away, where the
    /// store passes refusals 1 and 2.
    pub fn smaller(mut self: Box<Self>, library: &dyn Library) -> Box<Self> {
        let parts = |store: &Store, call: &Call| {
            let edge = Edge {
                name: String::new(),
                store: Arc::new(store.clone()),
                call: call.clone(),
            };
            let single = Single {
                edge,
                expected: None,
            };
            Gate::new(library).single(&[single]).is_err()
        };
        if passes_refusals_1_and_2(&self.store) && parts(&self.store, &self.call) {
            let found = minimise(&self.store, &self.call, &parts, SHRINKING);
            (self.store, self.call) = found;
        }
        self
    }
}

pub type Outcome = Result<(), Box<Parted>>;

pub struct Gate<'a> {
    library: &'a dyn Library,
    /// Calls that the library was asked.
    pub calls: u64,
    /// Those by name and the model's number.
    pub answers: BTreeMap<(&'static str, u32), u64>,
}

/// Everything that the gate runs: without guard pages, then with them on
/// either side.
pub fn judge(library: &dyn Library) -> Result<String, Box<Parted>> {
    let mut gate = Gate::new(library);
    gate.all().map_err(|parted| parted.smaller(library))?;
    let mut report = gate.report();
    for side in [Side::End, Side::Start] {
        let guarded = Guarded { library, side };
        let mut gate = Gate::new(&guarded);
        gate.guarded().map_err(|parted| parted.smaller(&guarded))?;
        let _ = writeln!(report, "guard pages, {side:?}: {} calls", gate.calls);
    }
    Ok(report)
}

impl<'a> Gate<'a> {
    pub fn new(library: &'a dyn Library) -> Self {
        Self {
            library,
            calls: 0,
            answers: BTreeMap::new(),
        }
    }

    /// Every call that the gate makes without guard pages.
    pub fn all(&mut self) -> Outcome {
        self.edges()?;
        self.alone()?;
        self.archives()?;
        self.runs()?;
        self.wide()?;
        self.histories(SEED, 0, EARLY_CALLS)?;
        self.pairs()?;
        self.large()?;
        self.histories(SEED, 1_000_000, HISTORY_CALLS - EARLY_CALLS)
    }

    /// The calls that are made between guard pages.
    pub fn guarded(&mut self) -> Outcome {
        self.edges()?;
        self.alone()?;
        self.archives()?;
        self.runs()?;
        self.histories(SEED + 1, 0, GUARDED_CALLS)
    }

    /// The library's answer, or that it does not return.
    fn ask(&mut self, store: &mut Store, call: &Call, answer: &Answer) -> Result<(), String> {
        self.calls += 1;
        *self
            .answers
            .entry((call.name(), answer.number))
            .or_default() += 1;
        let told = catch_unwind(AssertUnwindSafe(|| self.library.run(store, call)));
        match told {
            Err(_) => Err("the library panics".into()),
            Ok(told) if told.number != answer.number || told.count != answer.count => Err(format!(
                "model {} count {}, library {} count {}",
                answer.number, answer.count, told.number, told.count
            )),
            Ok(told) if told.refused != answer.refused => Err(format!(
                "model {} count {}, which is {}a refused call; the library tells it otherwise",
                answer.number,
                answer.count,
                if answer.refused { "" } else { "not " }
            )),
            Ok(told) if told.output != answer.output => Err("the output buffers part".into()),
            Ok(_) => Ok(()),
        }
    }

    /// Single calls, each on its store. Calls on one store stand together.
    fn single(&mut self, cases: &[Single]) -> Outcome {
        let mut lent: Option<(&Arc<Store>, Store)> = None;
        for Single { edge, expected } in cases {
            let Edge { name, store, call } = edge;
            if !self.library.supports(call) {
                continue;
            }
            // A copy that a call has left as it was serves the next call.
            let mut copy = match lent.take() {
                Some((of, copy)) if Arc::ptr_eq(of, store) => copy,
                _ => Store::clone(store),
            };
            let same = match expected {
                Some(answer) => {
                    let same = self.ask(&mut copy, call, answer);
                    same.and_then(|()| same_store(store, &copy))
                }
                None => {
                    let mut after = Store::clone(store);
                    let answer = model::run(&mut after, call);
                    let same = self.ask(&mut copy, call, &answer);
                    same.and_then(|()| same_store(&after, &copy))
                }
            };
            same.map_err(|reason| self.parted(name, reason, store, call))?;
            if expected.is_some() {
                lent = Some((store, copy));
            }
        }
        Ok(())
    }

    fn parted(&self, origin: &str, reason: String, store: &Store, call: &Call) -> Box<Parted> {
        Box::new(Parted {
            origin: origin.into(),
            reason,
            calls: self.calls,
            store: store.clone(),
            call: call.clone(),
        })
    }

    pub fn edges(&mut self) -> Outcome {
        static EDGES: LazyLock<Vec<Single>> = LazyLock::new(|| prepared(edges()));
        self.single(&EDGES)
    }

    /// Every word of refusals 1 and 2, met by every call.
    pub fn alone(&mut self) -> Outcome {
        static ALONE: LazyLock<Vec<Single>> = LazyLock::new(|| prepared(met_by_every_call()));
        self.single(&ALONE)
    }

    /// Archive writes, mostly each beside the same write.
    pub fn archives(&mut self) -> Outcome {
        static ARCHIVES: LazyLock<Vec<Single>> = LazyLock::new(|| prepared(archives()));
        self.single(&ARCHIVES)
    }

    pub fn pairs(&mut self) -> Outcome {
        let single = |edge| Single {
            edge,
            expected: None,
        };
        let pairs: Vec<Single> = pairs().into_iter().map(single).collect();
        self.single(&pairs)
    }

    /// New blocks in one run where one exists, in one allocation group.
    pub fn runs(&mut self) -> Outcome {
        static RUNS: LazyLock<Cases> = LazyLock::new(runs::small);
        let steps = RUNS.cases.iter();
        let steps = steps.map(|case| (case.name, &case.volume, &case.call));
        self.steps(RUNS.store.clone(), steps)
    }

    /// Calls on stores of three allocation groups.
    pub fn wide(&mut self) -> Outcome {
        let (store, steps) = wide();
        let steps = steps.iter();
        let steps = steps.map(|(volume, call)| ("three allocation groups", volume, call));
        self.steps(store, steps)?;
        let Cases { store, cases, .. } = runs::wide();
        let steps = cases.iter();
        let steps = steps.map(|case| (case.name, &case.volume, &case.call));
        self.steps(store, steps)?;
        let (store, steps) = fragments::wide(SEED, WIDE_CALLS);
        let steps: Vec<(Volume, Call)> = steps.collect();
        let steps = steps.iter();
        let steps = steps.map(|(volume, call)| ("short runs in three groups", volume, call));
        self.steps(store, steps)
    }

    /// Calls, each on its volume, on one store whose image goes on.
    fn steps<'b>(
        &mut self,
        mut document: Store,
        steps: impl Iterator<Item = (&'b str, &'b Volume, &'b Call)>,
    ) -> Outcome {
        let mut lent = document.clone();
        for (name, volume, call) in steps {
            volume.encode(&mut document);
            lent.copy_records_from(&document);
            self.step(name, &mut document, &mut lent, call)?;
        }
        same_image(&document, &lent)
            .map_err(|reason| self.parted("after all steps", reason, &document, &Call::Fill))
    }

    /// One call on two stores that go on, the model's and the library's.
    fn step(
        &mut self,
        origin: &str,
        document: &mut Store,
        lent: &mut Store,
        call: &Call,
    ) -> Outcome {
        let used_before = document.used.clone();
        let records: Vec<Vec<u8>> = document.buffers()[1..].iter().map(|b| b.to_vec()).collect();
        let answer = model::run(document, call);
        if !self.library.supports(call) {
            carry(document, lent, &used_before);
            return Ok(());
        }
        let same = self.ask(lent, call, &answer).and_then(|()| {
            let same = document.records_equal(lent) && same_images(document, lent, &used_before);
            if same {
                Ok(())
            } else {
                Err("the stores part".into())
            }
        });
        same.map_err(|reason| {
            let mut before = document.clone();
            for (to, from) in before.buffers_mut().into_iter().skip(1).zip(records) {
                *to = from;
            }
            self.parted(origin, reason, &before, call)
        })
    }

    /// Stores at the upper bounds of refusal 1, zero but for the head: the
    /// model and the library share one, since neither may change a byte.
    pub fn large(&mut self) -> Outcome {
        for (name, mut store, calls) in large() {
            let head = store.head.clone();
            for call in calls.iter().filter(|call| self.library.supports(call)) {
                let answer = model::run(&mut store, call);
                if let Err(reason) = self.ask(&mut store, call, &answer) {
                    return Err(self.parted(name, reason, &Store::default(), call));
                }
            }
            let zero = (0..7)
                .filter(|at| *at != 1)
                .all(|at| is_zero(store.buffers()[at]));
            if !zero || store.head != head {
                let reason = "a byte of the store is changed".into();
                return Err(self.parted(name, reason, &Store::default(), &calls[0]));
            }
        }
        Ok(())
    }

    /// Histories from `first` on, of so many calls together: those that the
    /// library does not have are counted too.
    pub fn histories(&mut self, seed: u64, first: u64, calls: u64) -> Outcome {
        let (mut made, mut number) = (0, first);
        while made < calls {
            made += self.history(seed, number)?;
            number += 1;
        }
        Ok(())
    }

    /// One history, to its end: the number of its calls.
    pub fn history(&mut self, seed: u64, number: u64) -> Result<u64, Box<Parted>> {
        let mut walk = Walk::rough(seed, number);
        let mut lent = walk.store.clone();
        let (mut last, mut made) = (0, 0);
        while let Some(event) = walk.event() {
            let call = match event {
                Event::Call(call) => call,
                Event::Changed(change) => {
                    change.copy(&walk.store, &mut lent);
                    continue;
                }
            };
            last = walk.step;
            made += 1;
            let used_before = walk.store.used.clone();
            let answer = model::run(&mut walk.store, &call);
            walk.answered(&answer);
            if !self.library.supports(&call) {
                carry(&walk.store, &mut lent, &used_before);
                continue;
            }
            let same = self.ask(&mut lent, &call, &answer).and_then(|()| {
                let same = walk.store.records_equal(&lent)
                    && same_images(&walk.store, &lent, &used_before);
                if same {
                    Ok(())
                } else {
                    Err("the stores part".into())
                }
            });
            if let Err(reason) = same {
                return Err(self.rebuilt(seed, number, walk.step, reason));
            }
        }
        match same_image(&walk.store, &lent) {
            Ok(()) => Ok(made),
            Err(reason) => Err(self.rebuilt(seed, number, last, reason)),
        }
    }

    /// The failure with the store as it was before the step.
    fn rebuilt(&self, seed: u64, number: u64, step: usize, reason: String) -> Box<Parted> {
        let mut walk = Walk::rough(seed, number);
        let origin = format!("seed {seed} history {number} step {step}");
        while let Some(event) = walk.event() {
            if let Event::Call(call) = event {
                if walk.step == step {
                    return self.parted(&origin, reason, &walk.store, &call);
                }
                let answer = model::run(&mut walk.store, &call);
                walk.answered(&answer);
            }
        }
        self.parted(&origin, reason, &walk.store, &Call::Fill)
    }

    /// The calls by name and number.
    pub fn report(&self) -> String {
        let mut text = format!("{} calls, by the model's number:\n", self.calls);
        for name in [
            "fresh",
            "enter",
            "write",
            "write_archive",
            "grow",
            "read",
            "read_many",
            "write_batch",
            "data_stretches",
            "settle",
            "fill",
        ] {
            let _ = write!(text, "  {name:14}");
            for ((_, number), count) in self.answers.iter().filter(|((n, _), _)| *n == name) {
                let _ = write!(text, "  {number}: {count}");
            }
            text.push('\n');
        }
        text
    }
}

/// A call on its store, with the model's answer where the store stays as it
/// is: for the others the model is asked each time, which spares their stores.
struct Single {
    edge: Edge,
    expected: Option<Answer>,
}

fn prepared(edges: Vec<Edge>) -> Vec<Single> {
    let prepare = |edge: Edge| {
        let mut after = Store::clone(&edge.store);
        let answer = model::run(&mut after, &edge.call);
        Single {
            expected: (after == *edge.store).then_some(answer),
            edge,
        }
    };
    edges.into_iter().map(prepare).collect()
}

/// The sound stores and those that break a word, met by every call and by lists
/// and a range that refusals 17 to 19 refuse; and the broken stores that are
/// recorded.
fn met_by_every_call() -> Vec<Edge> {
    let sound = sounds().map(|store| ("a sound store".into(), Arc::new(store)));
    let alone = alone()
        .into_iter()
        .map(|broken| (broken.name, Arc::new(broken.store)));
    let met = sound
        .into_iter()
        .chain(alone)
        .flat_map(|(name, store): (String, _)| {
            let met = move |call| Edge {
                name: name.clone(),
                store: Arc::clone(&store),
                call,
            };
            calls().into_iter().chain(bad_lists()).map(met)
        });
    let recorded = broken_stores().into_iter().map(|broken| Edge {
        name: broken.name.into(),
        store: Arc::new(broken.store),
        call: broken.call,
    });
    met.chain(recorded).collect()
}

fn is_zero(bytes: &[u8]) -> bool {
    // In pieces of 64, which are compared faster than single bytes.
    let (pieces, rest) = bytes.as_chunks::<64>();
    pieces.iter().all(|piece| *piece == [0; 64]) && rest.iter().all(|&byte| byte == 0)
}

fn same_store(document: &Store, lent: &Store) -> Result<(), String> {
    let names = [
        "image",
        "head",
        "cards",
        "extents",
        "groups",
        "used map",
        "retired map",
    ];
    let pairs = document.buffers().into_iter().zip(lent.buffers());
    match pairs
        .zip(names)
        .find(|((model, library), _)| model != library)
    {
        None => Ok(()),
        Some((_, name)) => Err(format!("the stores part: {name}")),
    }
}

fn same_image(document: &Store, lent: &Store) -> Result<(), String> {
    if document.image == lent.image {
        return Ok(());
    }
    Err("a byte changed in a block that did not become used".into())
}

/// Bring the library's store to the model's after a call that the library
/// does not have: of the image only blocks that became used have changed.
fn carry(document: &Store, lent: &mut Store, used_before: &[u8]) {
    lent.copy_records_from(document);
    if document.image.len() != lent.image.len() {
        lent.image.clone_from(&document.image);
        return;
    }
    for (byte, (now, before)) in document.used.iter().zip(used_before).enumerate() {
        for bit in (0..8).filter(|bit| (now & !before) >> bit & 1 == 1) {
            let at = (byte * 8 + bit) * model::BLOCK_BYTES;
            if let Some(block) = document.image.get(at..at + model::BLOCK_BYTES) {
                lent.image[at..at + model::BLOCK_BYTES].copy_from_slice(block);
            }
        }
    }
}
