//! Makes the wrong models out of the model's own text and the list in
//! `wrong.edits`: every listed expression or statement of `rules.rs` and
//! `records.rs` becomes a `match` on the wrong model that is switched on, with
//! the model's own text for every other. So one copy is compiled for them all,
//! and the model itself holds no switch.
//!
//! An entry of the list:
//!
//! ```text
//! wrong: its name
//! file: rules.rs            (or records.rs)
//! old: the text to be replaced: an expression, a field with its value and
//!      comma, or whole statements
//! new: what takes its place
//! ```
//!
//! `before:` in place of `old:` puts the new statements before the text.
//! Several changes may stand in one entry. Runs of blanks and line ends count
//! as one blank. A text that does not stand in the file exactly once stops the
//! build.

use std::collections::BTreeMap;
use std::fmt::Write;
use std::path::{Path, PathBuf};
use std::{env, fs};

const FILES: [&str; 2] = ["rules.rs", "records.rs"];

struct Edit {
    wrong: usize,
    insert: bool,
    new: String,
}

/// The edits of one file by the span of the text that they name.
type Spans = BTreeMap<(usize, usize), Vec<Edit>>;

fn main() {
    let package = PathBuf::from(env::var_os("CARGO_MANIFEST_DIR").expect("set by cargo"));
    let out = PathBuf::from(env::var_os("OUT_DIR").expect("set by cargo"));
    let model = package.join("../model/src");
    for changed in ["build.rs", "wrong.edits", "../model/src"] {
        println!("cargo::rerun-if-changed={changed}");
    }
    let texts: Vec<String> = FILES.map(|file| source(&model.join(file))).into();
    let mut spans: Vec<Spans> = FILES.map(|_| Spans::new()).into();
    let mut names: Vec<String> = Vec::new();

    let list = fs::read_to_string(package.join("wrong.edits")).expect("the list of edits");
    let (mut file, mut named) = (0, None);
    for line in list.lines().filter(|line| !line.starts_with('#')) {
        let Some((key, value)) = line.split_once(':') else {
            assert!(line.is_empty(), "not an entry: {line}");
            continue;
        };
        let value = value.trim();
        match key {
            "wrong" => {
                assert!(!names.iter().any(|name| name == value), "twice: {value}");
                names.push(value.into());
            }
            "file" => {
                let at = FILES.iter().position(|name| *name == value);
                file = at.unwrap_or_else(|| panic!("no file {value}"));
            }
            "old" | "before" => named = Some((key == "before", span(&texts[file], value))),
            "new" => {
                let (insert, span) = named.take().expect("`old:` or `before:` comes first");
                spans[file].entry(span).or_default().push(Edit {
                    wrong: names.len(),
                    insert,
                    new: value.into(),
                });
            }
            _ => panic!("not an entry: {line}"),
        }
    }

    for ((file, text), spans) in FILES.iter().zip(&texts).zip(&spans) {
        let rendered = render(text, spans, 0, text.len());
        fs::write(out.join(file), rendered).expect("OUT_DIR");
    }
    let list = format!("pub const NAMES: [&str; {}] = {names:?};\n", names.len());
    fs::write(out.join("names.rs"), list).expect("OUT_DIR");
}

/// The file without the comment at its head and without its tests.
fn source(path: &Path) -> String {
    let text = fs::read_to_string(path).expect("the model's source");
    let text = text.split("#[cfg(test)]").next().unwrap_or_default();
    let lines = text.lines().filter(|line| !line.starts_with("//!"));
    lines.fold(String::new(), |all, line| all + line + "\n")
}

/// Where the wanted text stands, blanks aside.
fn span(text: &str, wanted: &str) -> (usize, usize) {
    let (mut packed, mut places) = (String::new(), Vec::new());
    for (at, letter) in text.char_indices() {
        if !letter.is_whitespace() {
            packed.push(letter);
        } else if !packed.ends_with(' ') {
            packed.push(' ');
        } else {
            continue;
        }
        places.resize(packed.len(), at);
    }
    let mut found = packed.match_indices(wanted);
    let (Some((at, _)), None) = (found.next(), found.next()) else {
        panic!("stands not exactly once in the model: {wanted}");
    };
    (places[at], places[at + wanted.len() - 1] + 1)
}

/// The text from `from` to `to` with the edits that lie within it.
fn render(text: &str, spans: &Spans, from: usize, to: usize) -> String {
    let mut rendered = String::new();
    let mut at = from;
    // The outermost first: the longer of two that begin at one place.
    let mut within: Vec<_> = spans
        .iter()
        .filter(|((a, b), _)| from <= *a && *b <= to)
        .collect();
    within.retain(|((a, b), _)| (*a, *b) != (from, to));
    within.sort_by_key(|((a, b), _)| (*a, usize::MAX - *b));
    for (&(start, end), edits) in within {
        if end <= at && start < at {
            continue;
        }
        assert!(at <= start, "edits that cross: {}", &text[start..end]);
        rendered.push_str(&text[at..start]);
        let old = render(text, spans, start, end);
        let _ = write!(rendered, "{}", switched(&old, edits));
        at = end;
    }
    rendered + &text[at..to]
}

fn switched(old: &str, edits: &[Edit]) -> String {
    let mut text = String::new();
    for edit in edits.iter().filter(|edit| edit.insert) {
        let _ = write!(text, "if crate::on({}) {{ {} }} ", edit.wrong, edit.new);
    }
    // A field with its value: the value alone is switched.
    let (field, old) = match old.strip_suffix(',').and_then(|old| old.split_once(": ")) {
        Some((field, value)) => (format!("{field}: "), value),
        None => (String::new(), old),
    };
    let comma = if field.is_empty() { "" } else { "," };
    let value = |new: &str| -> String {
        let new = new.strip_prefix(&field).expect("the same field");
        new.strip_suffix(comma).expect("the same field").into()
    };
    let arms = edits.iter().filter(|edit| !edit.insert);
    let arms = arms.fold(String::new(), |all, edit| {
        all + &format!("{} => {{ {} }} ", edit.wrong, value(&edit.new))
    });
    if arms.is_empty() {
        return text + &field + old + comma;
    }
    let choice = format!("match crate::which() {{ {arms} _ => {{ {old} }} }}");
    if old.ends_with([';', '}']) {
        text + &choice
    } else {
        text + &field + "(" + &choice + ")" + comma
    }
}
