//! The gate that a library has to pass, held against models that are known to
//! be right or wrong.

use std::cell::Cell;
use std::panic;
use std::process::Command;
use std::sync::atomic::{AtomicUsize, Ordering};
use std::sync::{Mutex, Once};
use std::thread;

use compare::alone::{Alone, alone, calls, sounds};
use compare::gate::{Gate, Parted, judge};
use compare::guard::{Pages, Side};
use compare::library::{Lent, Library, Request, Told, Whole};
use model::{Answer, Call, Store};
use wrong::Wrong;

#[test]
fn the_model_passes_the_gate() {
    let report = judge(&Whole(model::run)).map_err(|parted| parted.report());
    print!("{}", report.unwrap_or_else(|report| panic!("{report}")));
}

/// The text that the wrong models are made of, with none of them switched on.
#[test]
fn the_text_of_the_wrong_models_is_the_models() {
    let same = library(Wrong::NONE);
    let mut gate = Gate::new(&same);
    let result = gate.edges().and_then(|()| gate.alone());
    let result = result.and_then(|()| gate.archives());
    let result = result.and_then(|()| gate.histories(1, 0, 3_000));
    assert!(result.is_ok(), "{}", result.err().unwrap().report());
}

thread_local! {
    static QUIET: Cell<bool> = const { Cell::new(false) };
}

/// Panics of wrong models are answers, and are not printed.
fn quietly<T>(run: impl FnOnce() -> T) -> T {
    static HOOK: Once = Once::new();
    HOOK.call_once(|| {
        let hook = panic::take_hook();
        panic::set_hook(Box::new(move |told| {
            if !QUIET.get() {
                hook(told);
            }
        }));
    });
    QUIET.set(true);
    let result = run();
    QUIET.set(false);
    result
}

fn library(wrong: Wrong) -> impl Library {
    Whole(move |store: &mut Store, call: &Call| wrong.run(store, call))
}

/// The first call of the gate on which a wrong model parts from the model.
fn found(wrong: Wrong) -> Option<Box<Parted>> {
    quietly(|| Gate::new(&library(wrong)).all().err())
}

/// `cargo test --test gate -- --nocapture wrong` prints the calls that each
/// took.
#[test]
fn every_wrong_model_is_found() {
    let all: Vec<Wrong> = Wrong::all().collect();
    let next = AtomicUsize::new(0);
    let table = Mutex::new(vec![String::new(); all.len()]);
    let search = || {
        loop {
            let at = next.fetch_add(1, Ordering::Relaxed);
            let Some(&wrong) = all.get(at) else { break };
            let name = wrong.name();
            table.lock().unwrap()[at] = match found(wrong) {
                Some(parted) => format!("{:>6} calls: {name} ({})", parted.calls, parted.origin),
                None => format!("not found: {name}"),
            };
        }
    };
    thread::scope(|scope| {
        scope.spawn(search);
        scope.spawn(search);
    });
    let table = table.into_inner().unwrap();
    println!("{}", table.join("\n"));
    let missed = table.iter().filter(|line| line.starts_with("not found"));
    let missed: Vec<&String> = missed.collect();
    assert!(missed.is_empty(), "{missed:#?}");
}

/// A failing case is made small and told in words.
#[test]
fn what_a_library_does_wrong_is_told() {
    for (name, blocks) in [
        ("a full last block not kept", 60),
        ("hollow: a read that always gives zeros", 12),
        ("used map that does not fit", 1),
        ("a piece laid behind the bytes handed out before it", 20),
        ("a unit counted again where another comes between", 20),
        ("2 tried once for a batch", 8),
        (
            "a block that an earlier write of the batch gave up handed out",
            24,
        ),
        (
            "a batch that stops before its first write told as refused",
            24,
        ),
        ("a write sets both times", 7),
        (
            "a card put before others leaves their creation times in their places",
            1,
        ),
        ("a stretch broken at a group's end", 1),
        ("a slot past the end listed", 1),
        ("pairs written before 19 is known", 1),
        ("a stretch reaches before the range", 1),
        ("an archive write keeps at three runs", 24),
        ("a write keeps at two runs alone", 24),
        (
            "the limit of an archive write tried on the unit's old runs",
            24,
        ),
        ("image of no block", 0),
    ] {
        let wrong = library(Wrong::named(name).expect("listed"));
        let parted = quietly(|| judge(&wrong)).expect_err("a wrong model");
        let report = parted.report();
        assert!(report.contains("call: "), "{report}");
        assert!(parted.store.image.len() <= blocks * 4_096, "{report}");
    }
}

/// With its word left out of the model, every call on such a store gets past
/// refusals 1 and 2: no other word of them is broken.
#[test]
fn each_store_breaks_its_word_alone() {
    for store in sounds() {
        for call in calls() {
            let number = model::run(&mut store.clone(), &call).number;
            assert_eq!(number, 0, "{}", call.name());
        }
    }
    let broken = alone();
    let words = broken.iter().filter(|broken| broken.word.is_some()).count();
    println!("{} stores, {words} of them by a word", broken.len());
    assert!(words > 200);
    let wrongs: Vec<Option<Wrong>> = broken
        .iter()
        .map(|broken| broken.word)
        .map(|word| word.map(|word| Wrong::named(word).expect("a wrong model of this name")))
        .collect();
    let faults: Vec<String> = quietly(|| {
        let cases = broken.iter().zip(wrongs);
        let cases = cases
            .flat_map(|(broken, wrong)| calls().into_iter().map(move |call| (broken, wrong, call)));
        cases
            .filter_map(|(broken, wrong, call)| fault(broken, wrong, &call))
            .collect()
    });
    assert!(faults.is_empty(), "{faults:#?}");
}

fn fault(broken: &Alone, wrong: Option<Wrong>, call: &Call) -> Option<String> {
    let told = |what: &str| Some(format!("{}, {}: {what}", broken.name, call.name()));
    let mut store = broken.store.clone();
    let number = model::run(&mut store, call).number;
    // Fresh does not try 2, and of 1 not all.
    let fresh = matches!(call, Call::Fresh { .. });
    if fresh && broken.number == 2 {
        return if number == 0 {
            None
        } else {
            told("fresh is refused")
        };
    }
    if !fresh && number != broken.number {
        return told("not refused by its number");
    }
    if number != 0 && store != broken.store {
        return told("a refused call changes the store");
    }
    // Past the device there is no block to look at: a model that gets so far
    // panics, and gives no number.
    let mut store = broken.store.clone();
    let answered = panic::catch_unwind(move || wrong.map(|wrong| wrong.run(&mut store, call)));
    match answered {
        Ok(Some(answer)) if answer.refused && matches!(answer.number, 1 | 2) => {
            told("refused by 1 or 2 without the word, too")
        }
        _ => None,
    }
}

/// A library of four calls: the comparison goes on with the model's store where
/// it has no call, and still finds what is wrong in the others.
#[test]
fn a_library_without_some_calls_is_judged_on_the_others() {
    struct Four(Wrong);
    impl Library for Four {
        fn supports(&self, call: &Call) -> bool {
            let listed = matches!(
                call,
                Call::ReadMany { .. } | Call::WriteBatch { .. } | Call::DataStretches { .. }
            );
            !call.compared() && !listed
        }
        fn lent(&self, _: Lent<'_>, _: Request<'_>) -> Told {
            unreachable!("it is lent whole stores")
        }
        fn run(&self, store: &mut Store, call: &Call) -> Answer {
            assert!(self.supports(call), "a call that it does not have");
            self.0.run(store, call)
        }
    }
    let four = Four(Wrong::NONE);
    let mut gate = Gate::new(&four);
    let result = gate.histories(2, 0, 4_000).and_then(|()| gate.wide());
    assert!(result.is_ok(), "{}", result.err().unwrap().report());
    assert!(
        gate.answers
            .keys()
            .all(|(name, _)| ["fresh", "enter", "settle", "fill"].contains(name))
    );
    for name in [
        "settle keeps the used bits",
        "fill leaves out retired blocks",
    ] {
        let wrong = Four(Wrong::named(name).expect("listed"));
        let mut gate = Gate::new(&wrong);
        assert!(gate.histories(2, 0, 4_000).is_err(), "{name}");
    }
}

const BESIDE: &str = "SANGUEKO_READ_BESIDE";

/// A byte beside a guarded buffer ends the process that reads it.
#[test]
fn a_byte_beside_a_guarded_buffer_has_no_access() {
    if let Ok(beside) = std::env::var(BESIDE) {
        let beside: isize = beside.parse().expect("a number");
        let side = if beside < 0 { Side::Start } else { Side::End };
        for length in [0, 1, 4_096, 5_000] {
            let pages = Pages::new(&vec![7; length], side);
            assert!(pages.bytes().iter().all(|byte| *byte == 7));
        }
        let length = 100;
        println!("{}", Pages::new(&vec![7; length], side).read_beside(beside));
        return;
    }
    for beside in ["0", "-1", "3", "-4096"] {
        let ended = Command::new(std::env::current_exe().unwrap())
            .args(["--exact", "a_byte_beside_a_guarded_buffer_has_no_access"])
            .env(BESIDE, beside)
            .output()
            .unwrap();
        // Neither passed nor failed: ended by a signal.
        assert_eq!(ended.status.code(), None, "{beside}");
    }
}
