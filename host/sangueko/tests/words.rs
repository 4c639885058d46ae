//! The refusals in words, and the C header beside this crate.

use std::collections::BTreeSet;
use std::error::Error;

use sangueko::Refusal;

#[test]
fn the_numbers_are_1_to_19() {
    let numbers: Vec<u32> = Refusal::ALL.iter().map(|r| r.number()).collect();
    assert_eq!(numbers, (1..=19).collect::<Vec<u32>>());
    for refusal in Refusal::ALL {
        assert_eq!(Refusal::of(refusal.number()), Some(refusal));
    }
    assert_eq!(Refusal::of(0).or(Refusal::of(20)), None);
}

#[test]
fn each_refusal_says_what_is_wrong_and_what_to_do() {
    let texts: BTreeSet<String> = Refusal::ALL.iter().map(Refusal::to_string).collect();
    assert_eq!(texts.len(), 19);
    for text in &texts {
        let (wrong, to_do) = text.split_once(": ").expect("two parts");
        assert!(!wrong.is_empty() && !to_do.is_empty(), "{text}");
        assert!(text.is_ascii() && !text.contains("  "), "{text}");
    }
    let _: &dyn Error = &Refusal::WrongLength;
}

const HEADER: &str = include_str!("../../../include/sangueko.h");

/// WrongLength as WRONG_LENGTH.
fn in_capitals(name: &str) -> String {
    let mut capitals = String::new();
    for (at, letter) in name.char_indices() {
        if at > 0 && letter.is_uppercase() {
            capitals.push('_');
        }
        capitals.push(letter.to_ascii_uppercase());
    }
    capitals
}

#[test]
fn the_header_has_the_same_numbers() {
    let listed: Vec<&str> = HEADER
        .lines()
        .map(|line| line.trim().trim_end_matches(','))
        .filter(|line| line.starts_with("SANGUEKO_") && line.contains(" = "))
        .collect();
    let expected = Refusal::ALL.map(|r| {
        let name = in_capitals(&format!("{r:?}"));
        format!("SANGUEKO_{name} = {}", r.number())
    });
    assert_eq!(listed, expected);
}

#[test]
fn the_header_has_the_same_sizes() {
    let sizes = [
        ("BLOCK_BYTES", sangueko::BLOCK_BYTES),
        ("HEAD_BYTES", sangueko::HEAD_BYTES),
        ("CARD_BYTES", sangueko::CARD_BYTES),
        ("EXTENT_BYTES", sangueko::EXTENT_BYTES),
        ("GROUP_BYTES", sangueko::GROUP_BYTES),
        ("UUID_BYTES", sangueko::UUID_BYTES),
        ("MOST_BLOCKS", sangueko::MOST_BLOCKS),
        ("MOST_PLACES", sangueko::MOST_PLACES),
        ("MOST_TRANSFER", sangueko::MOST_TRANSFER),
        ("RANGE_BYTES", sangueko::RANGE_BYTES),
        ("MOST_RANGES", sangueko::MOST_RANGES),
        ("UNIT_BYTES", sangueko::UNIT_BYTES as usize),
        ("STRETCH_BYTES", sangueko::STRETCH_BYTES),
        ("STACK_BYTES", sangueko::STACK_BYTES),
    ];
    let defined: Vec<&str> = HEADER
        .lines()
        .filter_map(|line| line.strip_prefix("#define SANGUEKO_"))
        .filter(|rest| *rest != "H" && !rest.starts_with("MAP_BYTES("))
        .collect();
    assert_eq!(
        defined,
        sizes.map(|(name, value)| format!("{name} {value}"))
    );
}

/// The functions of a text, each with the words of its parameters: those that
/// stand between its name and the closing bracket.
fn functions<'a>(text: &'a str, before: &str) -> Vec<(&'a str, Vec<&'a str>)> {
    let declared = text.split(before).skip(1).filter_map(|rest| {
        let (name, rest) = rest.split_once('(')?;
        let (parameters, _) = rest.split_once(')')?;
        let parameters = parameters.split(',').map(str::trim);
        Some((name, parameters.filter(|p| !p.is_empty()).collect()))
    });
    declared.collect()
}

/// A parameter of the crate, `name: type`, as the header declares it.
fn in_c(parameter: &str) -> String {
    let (name, kind) = parameter.split_once(": ").expect("a name and a type");
    let kind = match kind {
        "*const u8" => "const uint8_t *",
        "*mut u8" => "uint8_t *",
        "usize" => "size_t ",
        "u64" => "uint64_t ",
        _ => panic!("{kind}"),
    };
    format!("{kind}{name}")
}

#[test]
fn the_header_has_the_same_calls() {
    let bound = functions(include_str!("../src/ffi.rs"), "    fn sangueko_");
    let listed = functions(HEADER, "struct sangueko_answer sangueko_");
    assert_eq!(bound.len(), 11);
    assert_eq!(listed.len(), 11);
    for (name, parameters) in bound {
        let parameters: Vec<String> = parameters.into_iter().map(in_c).collect();
        let same = listed.iter().find(|(listed, _)| *listed == name);
        assert_eq!(same.expect("a prototype").1, parameters, "{name}");
    }
}
