//! The command `sangueko`: stores in folders, over the proved library.
//!
//! Each command has a file of its own, but for those that are one call. All that a store's
//! bytes become, the library makes of them: the files here load, lend, store and
//! tell.

mod args;
mod batch;
pub mod buffer;
mod check;
mod crc32c;
mod data;
pub mod diagnose;
pub mod disk;
mod explain;
mod failure;
mod flags;
mod folder;
mod help;
pub mod journal;
mod json;
mod lock;
mod make;
mod picture;
mod progress;
mod ranges;
mod records;
mod show;
mod svg;
mod time;
mod transfer;
mod units;
mod words;

use std::ffi::OsString;
use std::fs;
use std::io::{self, IsTerminal, Write};
use std::process::ExitCode;

use sangueko::{Places, Range};

use crate::args::Given;
use crate::data::Data;
use crate::failure::Failure;
use crate::folder::Folder;
use crate::help::{ARCHIVE, COMMANDS, TOP};
use crate::json::Json;
use crate::lock::Wait;
use crate::picture::{Measures, kinds};
use crate::ranges::Ranges;
use crate::records::Records;
use crate::transfer::{Part, Source, Target, To};
use crate::words::{counted, grouped, hex};

/// Runs the command; the exit code is 0, a refusal's number or one of those above.
pub fn main(arguments: Vec<OsString>) -> ExitCode {
    match run(&arguments) {
        Ok(()) => ExitCode::SUCCESS,
        Err(failure) => {
            if !matches!(failure, Failure::Closed) {
                let _ = writeln!(io::stderr(), "sangueko: {failure}");
            }
            ExitCode::from(failure.code())
        }
    }
}

fn run(arguments: &[OsString]) -> Result<(), Failure> {
    let Some((name, rest)) = arguments.split_first() else {
        return Err(Failure::Usage("there is no command".into()));
    };
    let name = name.to_string_lossy();
    if matches!(&*name, "--help" | "-h" | "help") {
        return print(TOP);
    }
    let spec = COMMANDS.iter().find(|spec| spec.name == name);
    let spec = spec.ok_or_else(|| Failure::Usage(format!("there is no command `{name}`")))?;
    if rest
        .iter()
        .any(|argument| argument == "--help" || argument == "-h")
    {
        return print(&format!("{}\n\n{}", spec.usage(), spec.help));
    }
    let given = spec.parse(rest)?;
    match spec.name {
        "new" => new(&given),
        "enter" => enter(&given),
        "write" => write(&given),
        "batch" => batch(&given),
        "read" => read(&given),
        "grow" => grow(&given),
        "settle" => settle(&given),
        "fill" => fill(&given),
        "show" => show(&given),
        "check" => check(&given),
        "data" => data(&given),
        "flags" => flags(&given),
        _ => explain(&given),
    }
}

fn print(text: &str) -> Result<(), Failure> {
    io::stdout()
        .write_all(text.as_bytes())
        .map_err(Failure::output)
}

fn folder(given: &Given) -> Result<Folder, Failure> {
    let wait = if given.switch("--no-wait") {
        Wait::No
    } else {
        Wait::Yes
    };
    Folder::find(&given.path(0), wait)
}

/// Places for the checksums of dense files, however the blocks are divided among
/// them.
fn groups_for(blocks: usize, cards: usize) -> usize {
    cards.saturating_add(blocks.div_ceil(4_096))
}

fn new(given: &Given) -> Result<(), Failure> {
    let path = given.path(0);
    let blocks = given.size_option("--blocks", 4_096)?;
    let cards = given.size_option("--cards", 64)?;
    let wanted = make::Wanted {
        blocks,
        reserved: given.number_option("--reserved")?.unwrap_or(0),
        places: Places {
            cards,
            extents: given.size_option("--extents", blocks)?,
            groups: given.size_option("--groups", groups_for(blocks, cards))?,
        },
        uuid: match given.uuid_option()? {
            Some(uuid) => uuid,
            None => make::random_uuid()?,
        },
    };
    make::make(&path, &wanted)?;
    print(&format!(
        "made {}: {}, {} reserved; places for {}, {} and {}; uuid {}\n",
        path.display(),
        counted(wanted.blocks, "block"),
        grouped(wanted.reserved),
        counted(wanted.places.cards, "card"),
        counted(wanted.places.extents, "extent"),
        counted(wanted.places.groups, "group"),
        hex(&wanted.uuid)
    ))
}

fn enter(given: &Given) -> Result<(), Failure> {
    let (object, time) = (given.number(1, "OBJECT")?, given.time()?);
    let mut open = folder(given)?.open()?;
    open.call(&format!("enter file {object}"), |store| {
        store.enter(object, time.seconds, time.nanoseconds)
    })?;
    print(&format!("entered file {object}\n"))
}

fn write(given: &Given) -> Result<(), Failure> {
    let to = To {
        object: given.number(1, "OBJECT")?,
        time: given.time()?,
        offset: given.number_option("--at")?.unwrap_or(0),
        archive: given.switch(ARCHIVE),
    };
    let folder = folder(given)?;
    let source = Source::of(given.optional_word(2))?;
    let written = transfer::write(folder, &to, source)?;
    let call = if to.archive { "archive call" } else { "call" };
    print(&format!(
        "wrote {} to file {} at byte {} in {}\n",
        counted(written.bytes, "byte"),
        to.object,
        grouped(to.offset),
        counted(written.calls, call)
    ))
}

fn batch(given: &Given) -> Result<(), Failure> {
    let time = given.time()?;
    let folder = folder(given)?;
    let list = batch::List::of(Source::of(given.optional_word(1))?)?;
    let written = batch::write(folder, &list, time)?;
    print(&format!(
        "made {} of {} in {}\n",
        counted(list.writes(), "write"),
        counted(written.bytes, "byte"),
        counted(written.calls, "call")
    ))
}

fn read(given: &Given) -> Result<(), Failure> {
    let object = given.number(1, "OBJECT")?;
    let offset = given.number_option("--at")?.unwrap_or(0);
    let mut part = Part::new(object, offset, given.number_option("--length")?);
    let target = given
        .path_option("--out")
        .map_or(Target::Standard, Target::File);
    if let Some(ranges) = ranges::given(given, object)? {
        return read_ranges(given, object, &ranges, &target);
    }
    let mut loaded = folder(given)?.load()?;
    let bytes = transfer::read(&mut loaded, &mut part, &target)?;
    tell_read(&counted(bytes, "byte"), &target)
}

fn read_ranges(
    given: &Given,
    object: u64,
    ranges: &[Range],
    target: &Target,
) -> Result<(), Failure> {
    let mut loaded = folder(given)?.load()?;
    let mut asked = Ranges::new(ranges, transfer::size(&loaded, object));
    let bytes = transfer::read(&mut loaded, &mut asked, target)?;
    if let Some(short) = asked.short() {
        let _ = writeln!(io::stderr(), "sangueko: {short}");
    }
    let read = format!(
        "{} of {} in {}",
        counted(bytes, "byte"),
        counted(ranges.len(), "range"),
        counted(asked.calls(), "call")
    );
    tell_read(&read, target)
}

/// Says what went into a file; standard output has nothing but the bytes.
fn tell_read(read: &str, target: &Target) -> Result<(), Failure> {
    match target {
        Target::Standard => Ok(()),
        Target::File(path) => print(&format!("read {read} into {}\n", path.display())),
    }
}

fn grow(given: &Given) -> Result<(), Failure> {
    let (object, time) = (given.number(1, "OBJECT")?, given.time()?);
    let size = given.number(2, "SIZE")?;
    let mut open = folder(given)?.open()?;
    open.call(&format!("grow of file {object}"), |store| {
        store.grow(object, size, time.seconds, time.nanoseconds)
    })?;
    print(&format!("file {object} has {}\n", counted(size, "byte")))
}

fn settle(given: &Given) -> Result<(), Failure> {
    let mut open = folder(given)?.open()?;
    let blocks = open.call("settle", |store| store.settle())?;
    print(&format!("let {} go\n", counted(blocks, "retired block")))
}

fn fill(given: &Given) -> Result<(), Failure> {
    let mut loaded = folder(given)?.load()?;
    let per_mille = loaded.tested("fill")?;
    let measures = Measures::of(&kinds(&Records::of(&loaded.store)));
    if given.switch("--json") {
        let json = Json::Fields(vec![
            ("per_mille", per_mille.into()),
            ("used", (measures.used() as u64).into()),
            ("usable", (measures.usable() as u64).into()),
        ]);
        return print(&format!("{json}\n"));
    }
    print(&format!("{}\n", measures.fullness(per_mille)))
}

fn view(given: &Given) -> Result<show::View, Failure> {
    let view = show::View {
        json: given.switch("--json"),
        colour: io::stdout().is_terminal()
            && std::env::var_os("NO_COLOR").is_none_or(|set| set.is_empty()),
        columns: given.size_option("--columns", 64)?,
        all: given.switch("--all"),
    };
    if !(8..=512).contains(&view.columns) {
        return Err(Failure::Usage("--columns: from 8 to 512".into()));
    }
    Ok(view)
}

/// Draws a picture where one is asked for.
fn draw(given: &Given, svg: impl FnOnce() -> Result<String, Failure>) -> Result<(), Failure> {
    let Some(path) = given.path_option("--svg") else {
        return Ok(());
    };
    fs::write(&path, svg()?).map_err(|error| Failure::on("writing", &path, error))
}

fn show(given: &Given) -> Result<(), Failure> {
    let view = view(given)?;
    let mut loaded = folder(given)?.load()?;
    draw(given, || {
        let per_mille = loaded.tested("show")?;
        Ok(svg::svg(&Records::of(&loaded.store), per_mille))
    })?;
    show::show(&mut loaded, &view, &mut io::stdout().lock())
}

fn data(given: &Given) -> Result<(), Failure> {
    let view = view(given)?;
    let object = given.number(1, "OBJECT")?;
    let first = given.optional_number(2, "FIRST")?.unwrap_or(0);
    // to the end, wherever that is
    let units = given.optional_number(3, "UNITS")?;
    let units = units.unwrap_or(u64::MAX - first);
    let mut loaded = folder(given)?.load()?;
    let doing = format!("data of file {object}");
    let data = Data::of(&mut loaded, &doing, object, (first, units))?;
    draw(given, || Ok(svg::data(&data)))?;
    if view.json {
        return print(&format!("{}\n", data.json()));
    }
    let printed = data.text(&view, &mut io::stdout().lock());
    printed.map_err(Failure::output)
}

fn check(given: &Given) -> Result<(), Failure> {
    let mut loaded = folder(given)?.load()?;
    check::check(
        &mut loaded,
        given.switch("--json"),
        &mut io::stdout().lock(),
    )
}

fn flags(given: &Given) -> Result<(), Failure> {
    let object = given.number(1, "OBJECT")?;
    let bins = given.number_option("--bins")?.map(u128::from);
    let mut loaded = folder(given)?.load()?;
    let flags = flags::count(&mut loaded, object, bins)?;
    if given.switch("--json") {
        return print(&format!("{}\n", flags.json(object)));
    }
    let printed = flags.text(object, &mut io::stdout().lock());
    printed.map_err(Failure::output)
}

fn explain(given: &Given) -> Result<(), Failure> {
    let number = given.number(0, "N")?;
    let number = u32::try_from(number).unwrap_or(u32::MAX);
    print(&explain::explain(number)?)
}
