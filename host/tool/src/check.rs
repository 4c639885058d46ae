//! `check`: whether a store is accepted, why not, and which units are damaged.

use std::collections::BTreeSet;
use std::io::Write;

use sangueko::{MOST_TRANSFER, Refusal, StoreBuf};

use crate::failure::Failure;
use crate::folder::Loaded;
use crate::json::Json;
use crate::records::{Card, Records, UNIT_BYTES};
use crate::units;
use crate::words::{counted, grouped};

/// Units that one read takes at most.
const STRETCH: u64 = MOST_TRANSFER as u64 / UNIT_BYTES;

/// A unit that the library refuses to read.
struct Damaged {
    unit: u64,
    refusal: Refusal,
    /// What the diagnosis says of it, which may disagree.
    says: Option<(u32, String)>,
}

/// What was found of a file.
struct Report {
    card: Card,
    written: u64,
    damaged: Vec<Damaged>,
}

pub fn check(loaded: &mut Loaded, json: bool, out: &mut impl Write) -> Result<(), Failure> {
    let answer = loaded.store.lend().fill();
    let disagreement = loaded.disagreement(answer.err());
    if let Err(refusal) = answer {
        let failure = loaded.refused("check", refusal);
        let printed = if json {
            writeln!(out, "{}", refused_json(loaded, refusal, &disagreement))
        } else {
            writeln!(out, "refusals 1 and 2: refused by {}", refusal.number())
                .and_then(|()| told(&disagreement, out))
        };
        printed.map_err(Failure::output)?;
        return Err(failure);
    }
    let reports = files(&mut loaded.store);
    if json {
        writeln!(out, "{}", json_of(&reports, &disagreement)).map_err(Failure::output)?;
    } else {
        text(&reports, &disagreement, out).map_err(Failure::output)?;
    }
    verdict(&reports)
}

fn told(disagreement: &Option<String>, out: &mut impl Write) -> std::io::Result<()> {
    match disagreement {
        Some(disagreement) => writeln!(out, "{disagreement}"),
        None => Ok(()),
    }
}

fn files(store: &mut StoreBuf) -> Vec<Report> {
    let records = Records::of(store);
    let files: Vec<(Card, BTreeSet<u64>)> = records
        .cards
        .iter()
        .map(|card| (*card, units::written(&records, card)))
        .collect();
    files
        .into_iter()
        .map(|(card, units)| file(store, card, &units))
        .collect()
}

/// Units of a file that are all read. A larger file has holes that would take
/// hours, and they read as zeros whatever the disk holds: of such a file the
/// written units are read.
const ALL_READ: u64 = 65_536;

/// The units through the library: many at a time, and one by one where one of them
/// is refused.
fn file(store: &mut StoreBuf, card: Card, units: &BTreeSet<u64>) -> Report {
    let mut out = vec![0; MOST_TRANSFER];
    let mut refused = Vec::new();
    let stretches: BTreeSet<u64> = if card.units() <= ALL_READ {
        (0..card.units().div_ceil(STRETCH)).collect()
    } else {
        units.iter().map(|unit| unit / STRETCH).collect()
    };
    for stretch in stretches {
        let first = stretch * STRETCH;
        if store
            .lend()
            .read(card.object, first * UNIT_BYTES, &mut out)
            .is_ok()
        {
            continue;
        }
        for unit in first..(first + STRETCH).min(card.units()) {
            let (unit_out, _) = out.split_at_mut(UNIT_BYTES as usize);
            if let Err(refusal) = store.lend().read(card.object, unit * UNIT_BYTES, unit_out) {
                refused.push((unit, refusal));
            }
        }
    }
    let records = Records::of(store);
    let damaged = refused.into_iter().map(|(unit, refusal)| Damaged {
        unit,
        refusal,
        says: units::damage(&records, &card, unit),
    });
    Report {
        card,
        written: units.len() as u64,
        damaged: damaged.collect(),
    }
}

impl Damaged {
    /// In words, with a word where the diagnosis sees something else.
    fn words(&self) -> String {
        let number = self.refusal.number();
        match &self.says {
            Some((said, says)) if *said == number => says.clone(),
            Some((said, says)) => {
                format!("library and diagnosis disagree: the diagnosis says {said}: {says}")
            }
            None => "library and diagnosis disagree: the diagnosis finds nothing".into(),
        }
    }
}

impl Report {
    fn never(&self) -> u64 {
        self.card.units() - self.written
    }
}

fn text(
    reports: &[Report],
    disagreement: &Option<String>,
    out: &mut impl Write,
) -> std::io::Result<()> {
    writeln!(out, "refusals 1 and 2: passed")?;
    told(disagreement, out)?;
    for report in reports {
        writeln!(
            out,
            "file {}: {}, {} written, {} never written, {} damaged",
            report.card.object,
            counted(report.card.units(), "unit"),
            grouped(report.written),
            grouped(report.never()),
            grouped(report.damaged.len())
        )?;
        for damaged in &report.damaged {
            let bytes = report.card.unit_bytes(damaged.unit);
            writeln!(
                out,
                "  unit {}, bytes {} to {} of the file: {}: {}\n    {}",
                grouped(damaged.unit),
                grouped(bytes.start),
                grouped(bytes.end.saturating_sub(1)),
                damaged.refusal.number(),
                damaged.refusal,
                damaged.words()
            )?;
        }
    }
    if reports.iter().all(|report| report.damaged.is_empty()) {
        writeln!(out, "accepted")?;
    }
    Ok(())
}

/// The first damaged unit gives the exit code.
fn verdict(reports: &[Report]) -> Result<(), Failure> {
    let damaged: usize = reports.iter().map(|report| report.damaged.len()).sum();
    let first = reports.iter().find_map(|report| report.damaged.first());
    match first {
        None => Ok(()),
        Some(first) => {
            let doing = format!("check: {} damaged", counted(damaged, "unit"));
            Err(Failure::refused(doing, first.refusal, None))
        }
    }
}

fn refused_json(loaded: &Loaded, refusal: Refusal, disagreement: &Option<String>) -> Json {
    Json::Fields(vec![
        ("accepted", false.into()),
        ("refusal", refusal.number().into()),
        (
            "finding",
            loaded.diagnose().map(|finding| finding.json()).into(),
        ),
        ("disagreement", disagreement.clone().into()),
    ])
}

fn json_of(reports: &[Report], disagreement: &Option<String>) -> Json {
    let first = reports.iter().find_map(|report| report.damaged.first());
    Json::Fields(vec![
        ("accepted", first.is_none().into()),
        (
            "refusal",
            first.map_or(0, |first| first.refusal.number()).into(),
        ),
        ("disagreement", disagreement.clone().into()),
        ("files", reports.iter().map(file_json).collect()),
    ])
}

fn file_json(report: &Report) -> Json {
    let damaged = report.damaged.iter().map(|damaged| {
        let bytes = report.card.unit_bytes(damaged.unit);
        Json::Fields(vec![
            ("unit", damaged.unit.into()),
            ("from", bytes.start.into()),
            ("to", bytes.end.into()),
            ("refusal", damaged.refusal.number().into()),
            ("says", damaged.words().into()),
        ])
    });
    Json::Fields(vec![
        ("object", report.card.object.into()),
        ("units", report.card.units().into()),
        ("written", report.written.into()),
        ("never_written", report.never().into()),
        ("damaged", damaged.collect()),
    ])
}
