//! Chooses the calls that are recorded.

use std::collections::BTreeMap;

use model::{Call, GROUP_BLOCKS, Store, passes_refusals_1_and_2};

use crate::broken::broken_stores;
use crate::created;
use crate::generate::{History, Profile};
use crate::recorded::{Case, Source, Writer};
use crate::run::{Verdict, judge};
use crate::runs;
use crate::smallest::{RECORDED_FIRST, smallest};
use crate::walk::{Event, Walk};

/// The seed of the recorded answers.
pub const SEED: u64 = 2026;

/// How often a sample wants to see the same kind of answer.
const OFTEN_ENOUGH: u32 = 3;
const MOST_BYTES: usize = 1_000_000;
/// Stores of two allocation groups hold 64 MiB each, and a test reads them.
const MOST_BLOCKS: u64 = GROUP_BLOCKS + 200;
const HISTORIES: u32 = 600;
const HISTORIES_OF_GROUPS: u32 = 1;

/// The bytes of answers.bin, and the number of its calls.
pub fn answers(seed: u64) -> (Vec<u8>, usize) {
    let mut writer = Writer::default();
    for broken in broken_stores() {
        writer.case(&told(&broken.store, &broken.call));
    }
    let smallest = smallest();
    let (first, later) = smallest.split_at(RECORDED_FIRST);
    for smallest in first {
        writer.case(&told(&smallest.store, &smallest.call));
    }
    let wanted = |history: &History| history.profile != Profile::Groups;
    choose(seed, &mut writer, wanted, HISTORIES);
    for smallest in later {
        writer.case(&told(&smallest.store, &smallest.call));
    }
    for edge in created::recorded().into_iter().chain(runs::recorded()) {
        writer.case(&told(&edge.store, &edge.call));
    }
    let calls = writer.calls;
    (writer.finish(), calls)
}

/// The bytes of groups.bin, and the number of its calls.
pub fn groups(seed: u64) -> (Vec<u8>, usize) {
    let mut writer = Writer::default();
    let wanted =
        |history: &History| history.profile == Profile::Groups && history.blocks() <= MOST_BLOCKS;
    choose(seed, &mut writer, wanted, HISTORIES_OF_GROUPS);
    let calls = writer.calls;
    (writer.finish(), calls)
}

/// What sets one kind of answer apart from another.
fn feature(profile: Profile, case: &Case) -> String {
    let shape = match &case.call {
        Call::Write { offset, bytes, .. } => {
            let edges = (offset % 65_536 == 0, bytes.len() % 4_096 == 0);
            let length = bytes.len().checked_ilog2().map_or(0, |log| 1 + log / 4);
            format!("{edges:?} {length}")
        }
        Call::Read { offset, length, .. } => {
            format!("{} {}", offset % 65_536 == 0, length % 65_536 == 0)
        }
        _ => String::new(),
    };
    let (name, number) = (case.call.name(), case.answer.number);
    format!("{profile:?} {name} {number} {:?} {shape}", case.source)
}

/// Take the histories that show something which was not seen often enough.
fn choose(seed: u64, writer: &mut Writer, wanted: impl Fn(&History) -> bool, mut tries: u32) {
    let mut seen: BTreeMap<String, u32> = BTreeMap::new();
    let histories = (0..).map(|number| History::new(seed, number));
    for history in histories.filter(wanted) {
        if writer.len() > MOST_BYTES || tries == 0 {
            break;
        }
        tries -= 1;
        let profile = history.profile;
        if profile == Profile::Groups {
            cases_of(history, |case| writer.case(&case));
            continue;
        }
        let mut features = Vec::new();
        cases_of(history.clone(), |case| {
            features.push(feature(profile, &case))
        });
        let rare = |feature: &&String| seen.get(*feature).is_none_or(|n| *n < OFTEN_ENOUGH);
        if features.iter().filter(rare).count() * 4 > features.len() {
            for feature in features {
                *seen.entry(feature).or_default() += 1;
            }
            cases_of(history, |case| writer.case(&case));
        }
    }
}

/// A call with both answers to it.
fn told(store: &Store, call: &Call) -> Case {
    let (source, answer, after) = if call.compared() && passes_refusals_1_and_2(store) {
        let judged = judge(store, call, &oracle::run);
        let source = match judged.verdict {
            Verdict::Agree => Source::Both,
            Verdict::Listed(difference) => Source::Differs(difference.place() as u8),
            Verdict::Part(reason) => panic!("an answer that is not settled: {reason}"),
        };
        (source, judged.answer, judged.after)
    } else {
        let mut after = store.clone();
        let answer = model::run(&mut after, call);
        (Source::Document, answer, after)
    };
    Case {
        before: store.clone(),
        call: call.clone(),
        source,
        answer,
        after,
    }
}

fn cases_of(history: History, mut each: impl FnMut(Case)) {
    let mut walk = Walk::new(history);
    while let Some(event) = walk.event() {
        if let Event::Call(call) = event {
            let case = told(&walk.store, &call);
            walk.store.clone_from(&case.after);
            let number = case.answer.number;
            each(case);
            if number == 2 {
                break;
            }
        }
    }
}
