//! The comparison: one history after another, both sides in step.

use std::collections::BTreeMap;
use std::fmt::Write;

use model::{Answer, BLOCK_BYTES, Call, Store, Volume, passes_refusals_1_and_2};
use oracle::{OracleAnswer, Outcome};

use crate::differences::Difference;
use crate::generate::Profile;
use crate::given::Given;
use crate::lists::by_single_reads;
use crate::ranges::by_reads_of_units;
use crate::walk::{Event, Walk};
use crate::writes::{Compared, by_single_writes};

/// The side that is held against the model: the oracle, or a library that
/// answers in its stead.
pub type Other<'a> = &'a dyn Fn(&mut Store, &Call) -> OracleAnswer;

/// How two answers to one call on one store stand to each other.
#[derive(Clone, Debug, PartialEq, Eq)]
pub enum Verdict {
    Agree,
    Listed(Difference),
    Part(String),
}

#[derive(Clone, Debug, Default)]
pub struct Tally {
    pub histories: u64,
    pub calls: u64,
    pub compared: u64,
    /// Of those, archive writes.
    pub archive: u64,
    /// Of those, writes and archive writes of files that a history writes by
    /// both.
    pub mixed: u64,
    /// Many reads in one call, held against single reads.
    pub many: u64,
    /// Batches of writes, held against single writes.
    pub batches: u64,
    /// Lists of stretches, held against reads of single units.
    pub stretches: u64,
    /// Compared calls by name and the document's number.
    pub answers: BTreeMap<(&'static str, u32), u64>,
    pub listed: BTreeMap<Difference, u64>,
    /// The units of compared calls, by the rule that gave them their blocks.
    pub given: Given,
    pub damages: BTreeMap<&'static str, u64>,
    pub profiles: BTreeMap<Profile, u64>,
}

/// Two answers that part, with the store on which they do.
#[derive(Debug)]
pub struct Failure {
    pub origin: String,
    pub reason: String,
    pub store: Store,
    pub call: Call,
}

/// Images beyond this are compared whole at a history's end, and after each
/// call only where a block became used.
const WHOLE_IMAGE_BYTES: usize = 8 << 20;

/// Whether the images are equal, as far as is looked at after each call.
pub fn same_images(document: &Store, rust: &Store, used_before: &[u8]) -> bool {
    if document.image.len() <= WHOLE_IMAGE_BYTES {
        return document.image == rust.image;
    }
    let maps = document.used.iter().zip(&rust.used).zip(used_before);
    maps.enumerate().all(|(byte, ((a, b), before))| {
        let changed = (a ^ before) | (b ^ before);
        (0..8).filter(|bit| changed >> bit & 1 == 1).all(|bit| {
            let at = (byte * 8 + bit) * BLOCK_BYTES;
            document.image[at..at + BLOCK_BYTES] == rust.image[at..at + BLOCK_BYTES]
        })
    })
}

fn verdict(store: &Store, compared: &Compared, same_store: bool) -> Verdict {
    let Compared {
        call,
        answer: document,
        told: rust,
    } = compared;
    let same_answer = rust.outcome.number() == Some(document.number)
        && rust.outcome.count() == document.count
        && rust.output == document.output;
    if same_answer && same_store {
        return Verdict::Agree;
    }
    // Every listed difference is a call that the document refuses, so the
    // document's store still holds the card as it was.
    let card = match call {
        Call::Write { object, .. }
        | Call::WriteArchive { object, .. }
        | Call::Grow { object, .. }
        | Call::Read { object, .. } => {
            let volume = Volume::decode(store);
            volume.card(*object).copied()
        }
        _ => None,
    };
    match Difference::explains(call, card.as_ref(), document, rust, same_store) {
        Some(difference) if document.number != 0 => Verdict::Listed(difference),
        _ => {
            let what = match (same_answer, same_store) {
                (true, false) => "the stores part",
                (false, true) => "the answers part",
                _ => "answers and stores part",
            };
            Verdict::Part(format!(
                "{what}: document {} count {}, other {:?}",
                document.number, document.count, rust.outcome
            ))
        }
    }
}

/// What both sides made of one call on copies of one store. Where the document
/// alone has an answer, nothing parts from it.
pub struct Judged {
    pub verdict: Verdict,
    pub answer: Answer,
    pub told: OracleAnswer,
    /// The document's store after the call.
    pub after: Store,
}

/// What the other side makes of a call that the document answers so: of many
/// reads in one call its single reads in list order, of a batch its single
/// writes, of a list of stretches its reads of single units. `None` where the
/// document alone has an answer.
fn ask(other: Other<'_>, store: &mut Store, call: &Call, answer: &Answer) -> Option<Compared> {
    let told = match call {
        Call::ReadMany { .. } if matches!(answer.number, 1 | 2 | 17) => None,
        Call::ReadMany { list, length } => {
            Some(by_single_reads(list, *length, |read| other(store, read)))
        }
        Call::WriteBatch { .. } => {
            let by_write = |write: &Call| past_refusals_1_and_2(other, store, write);
            return (!answer.refused).then(|| by_single_writes(call, answer, by_write));
        }
        Call::DataStretches { .. } if matches!(answer.number, 1 | 2) => None,
        Call::DataStretches { .. } => by_reads_of_units(store, call, answer, other),
        call => call.compared().then(|| other(store, call)),
    };
    told.map(|told| Compared {
        call: call.clone(),
        answer: answer.clone(),
        told,
    })
}

/// The other side has no refusals 1 and 2, and is not asked on a store that they
/// meet: no answer then, which is none that the document gives.
fn past_refusals_1_and_2(other: Other<'_>, store: &mut Store, call: &Call) -> OracleAnswer {
    if passes_refusals_1_and_2(store) {
        return other(store, call);
    }
    OracleAnswer {
        outcome: Outcome::NoCounterpart,
        output: call.blank_output(),
    }
}

pub fn judge(store: &Store, call: &Call, other: Other<'_>) -> Judged {
    let (mut after, mut right) = (store.clone(), store.clone());
    let answer = model::run(&mut after, call);
    let compared = ask(other, &mut right, call, &answer);
    let verdict = compared.as_ref().map_or(Verdict::Agree, |compared| {
        verdict(&after, compared, after == right)
    });
    let none = || OracleAnswer {
        outcome: Outcome::NoCounterpart,
        output: call.blank_output(),
    };
    Judged {
        verdict,
        told: compared.map_or_else(none, |compared| compared.told),
        answer,
        after,
    }
}

/// Run history `number` of `seed` through both sides.
pub fn compare_history(
    seed: u64,
    number: u64,
    other: Other<'_>,
    tally: &mut Tally,
) -> Result<(), Box<Failure>> {
    watched_history(seed, number, &|_, _| {}, other, tally)
}

/// The same, where `watch` is shown each call, of all eleven, with the store
/// before it.
pub fn watched_history(
    seed: u64,
    number: u64,
    watch: &dyn Fn(&Store, &Call),
    other: Other<'_>,
    tally: &mut Tally,
) -> Result<(), Box<Failure>> {
    let mut walk = Walk::with_lists(seed, number);
    let mut rust = walk.store.clone();
    *tally.profiles.entry(walk.history.profile).or_default() += 1;
    tally.histories += 1;
    // Writes and archive writes of each file.
    let mut mixed: BTreeMap<u64, (u64, u64)> = BTreeMap::new();
    while let Some(event) = walk.event() {
        let call = match event {
            Event::Call(call) => call,
            Event::Changed(change) => {
                if let Some(name) = change.name {
                    *tally.damages.entry(name).or_default() += 1;
                }
                change.copy(&walk.store, &mut rust);
                continue;
            }
        };
        tally.calls += 1;
        watch(&walk.store, &call);
        let (head_before, used_before) = (walk.store.head.clone(), walk.store.used.clone());
        let answer = model::run(&mut walk.store, &call);
        // A place that a damaged store shares may be kept and retired at
        // once; every later call is then refused by 2, which the Rust does
        // not have. Lists, which stand beside the history, do not end it.
        let listed = matches!(
            call,
            Call::ReadMany { .. } | Call::WriteBatch { .. } | Call::DataStretches { .. }
        );
        if answer.number == 2 && !listed {
            break;
        }
        let Some(compared) = ask(other, &mut rust, &call, &answer) else {
            rust.copy_records_from(&walk.store);
            continue;
        };
        match call {
            Call::ReadMany { .. } => tally.many += 1,
            Call::WriteBatch { .. } => tally.batches += 1,
            Call::DataStretches { .. } => tally.stretches += 1,
            _ => tally.compared += 1,
        }
        match call {
            Call::Write { object, .. } => mixed.entry(object).or_default().0 += 1,
            Call::WriteArchive { object, .. } => mixed.entry(object).or_default().1 += 1,
            _ => {}
        }
        *tally
            .answers
            .entry((call.name(), answer.number))
            .or_default() += 1;
        let document = &walk.store;
        let same_store =
            document.records_equal(&rust) && same_images(document, &rust, &used_before);
        match verdict(document, &compared, same_store) {
            Verdict::Agree if answer.number == 0 && oracle::AVAILABLE => {
                let given = &mut tally.given;
                given.count(&call, &head_before, &used_before, document);
            }
            Verdict::Agree => {}
            Verdict::Listed(difference) => {
                *tally.listed.entry(difference).or_default() += 1;
                if !same_store {
                    rust.clone_from(document);
                }
            }
            Verdict::Part(reason) => {
                let step = walk.step;
                let (store, call) = rebuild(seed, number, step);
                return Err(Box::new(Failure {
                    origin: format!("seed {seed} history {number} step {step}"),
                    reason,
                    store,
                    call,
                }));
            }
        }
    }
    for (writes, archive) in mixed.into_values() {
        tally.archive += archive;
        tally.mixed += if writes.min(archive) > 0 {
            writes + archive
        } else {
            0
        };
    }
    if walk.store.image != rust.image {
        let (store, call) = rebuild(seed, number, walk.step);
        return Err(Box::new(Failure {
            origin: format!("seed {seed} history {number}, at its end"),
            reason: "a byte changed in a block that did not become used".into(),
            store,
            call,
        }));
    }
    Ok(())
}

/// The store before a step of a history, and the step's call.
pub fn rebuild(seed: u64, number: u64, step: usize) -> (Store, Call) {
    let mut walk = Walk::with_lists(seed, number);
    let mut last = (walk.store.clone(), Call::Fill);
    while walk.step < step {
        match walk.event() {
            None => break,
            Some(Event::Changed(_)) => {}
            Some(Event::Call(call)) => {
                let before = walk.store.clone();
                model::run(&mut walk.store, &call);
                last = (before, call);
            }
        }
    }
    last
}

impl Tally {
    /// The numbers of a run, as a table.
    pub fn report(&self) -> String {
        let mut text = String::new();
        let _ = writeln!(
            text,
            "{} histories, {} calls, {} of them compared, {} of many reads by single reads, {} batches by single writes, {} lists of stretches by reads of single units",
            self.histories, self.calls, self.compared, self.many, self.batches, self.stretches
        );
        let _ = writeln!(
            text,
            "of the compared calls {} are archive writes, {} are writes and archive writes of files that were written by both",
            self.archive, self.mixed
        );
        let _ = writeln!(text, "profiles: {:?}", self.profiles);
        let _ = writeln!(text, "answers by the document's number:");
        for name in [
            "write",
            "write_archive",
            "grow",
            "read",
            "read_many",
            "write_batch",
            "data_stretches",
        ] {
            let mut line = format!("  {name:14}");
            for ((_, number), count) in self.answers.iter().filter(|((n, _), _)| *n == name) {
                let _ = write!(line, "  {number}: {count}");
            }
            let _ = writeln!(text, "{line}");
        }
        text += &self.given.report();
        let _ = writeln!(text, "damages:");
        for (name, count) in &self.damages {
            let _ = writeln!(text, "  {name}: {count}");
        }
        let _ = writeln!(text, "listed differences:");
        for difference in Difference::ALL {
            let count = self.listed.get(&difference).copied().unwrap_or(0);
            let _ = writeln!(text, "  {difference:?}: {count}");
        }
        text
    }
}
