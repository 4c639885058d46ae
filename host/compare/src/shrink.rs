//! Makes a case on which two sides part small and writes it out.

use std::fmt::Write;
use std::time::{Duration, Instant};

use model::records::TRIPLE_BYTES;
use model::{
    BLOCK_BYTES, Call, Extent, Group, Store, Time, Triple, Volume, passes_refusals_1_and_2,
};

use crate::lists::lengths;

/// Take away what the difference does not need: bytes, files, records, bits,
/// image contents. `parts` says whether a candidate still shows it, `budget`
/// how long the search may go on.
pub fn minimise(
    store: &Store,
    call: &Call,
    parts: &dyn Fn(&Store, &Call) -> bool,
    budget: Duration,
) -> (Store, Call) {
    let mut best = (store.clone(), call.clone());
    let started = Instant::now();
    // A case of a large store is told as it is: each try would copy it.
    if store.image.len() > 8 << 20 {
        return best;
    }
    while started.elapsed() < budget {
        let shows =
            |store: &Store, call: &Call| passes_refusals_1_and_2(store) && parts(store, call);
        let call = simpler_calls(&best.1)
            .into_iter()
            .find(|call| shows(&best.0, call));
        if let Some(call) = call {
            best.1 = call;
            continue;
        }
        let store = simpler_stores(&best.0)
            .map(|simpler| simpler(&best.0))
            .take_while(|_| started.elapsed() < budget)
            .find(|store| *store != best.0 && shows(store, &best.1));
        match store {
            Some(store) => best.0 = store,
            None => break,
        }
    }
    best
}

fn simpler_calls(call: &Call) -> Vec<Call> {
    let mut simpler = Vec::new();
    match call {
        &Call::Write {
            object,
            offset,
            ref bytes,
            time,
        } => {
            let write = |(offset, bytes)| Call::Write {
                object,
                offset,
                bytes,
                time,
            };
            simpler.extend(simpler_writes(offset, bytes).into_iter().map(write));
        }
        &Call::WriteArchive {
            object,
            offset,
            ref bytes,
            time,
        } => {
            let write = |(offset, bytes)| Call::WriteArchive {
                object,
                offset,
                bytes,
                time,
            };
            simpler.extend(simpler_writes(offset, bytes).into_iter().map(write));
        }
        Call::Read {
            object,
            offset,
            length,
        } => {
            for shorter in shorter(*length as u64) {
                simpler.push(Call::Read {
                    object: *object,
                    offset: *offset,
                    length: shorter as usize,
                });
            }
            if *offset > 0 {
                simpler.push(Call::Read {
                    object: *object,
                    offset: 0,
                    length: *length,
                });
            }
        }
        Call::ReadMany { list, length } => {
            let lists = simpler_lists(list, *length).into_iter();
            simpler.extend(lists.map(|(list, length)| Call::ReadMany { list, length }));
        }
        Call::WriteBatch { list, bytes, time } => {
            let batch = |list: Vec<u8>, bytes: Vec<u8>| Call::WriteBatch {
                list,
                bytes,
                time: *time,
            };
            // Which bytes a write has decides little, so that the first serve.
            let lists = simpler_lists(list, bytes.len()).into_iter();
            simpler.extend(lists.map(|(list, length)| batch(list, bytes[..length].to_vec())));
            if bytes.iter().any(|&byte| byte != 1) {
                simpler.push(batch(list.clone(), vec![1; bytes.len()]));
            }
        }
        Call::DataStretches {
            object,
            first,
            units,
            length,
        } => {
            let mut with = |first: u64, units: u64, length: usize| {
                simpler.push(Call::DataStretches {
                    object: *object,
                    first,
                    units,
                    length,
                });
            };
            for shorter in shorter(*units) {
                with(*first, shorter, *length);
                with(first.saturating_add(units - shorter), shorter, *length);
            }
            if *first > 0 {
                with(0, *units, *length);
            }
            for shorter in shorter(*length as u64) {
                with(*first, *units, shorter as usize);
            }
        }
        _ => {}
    }
    simpler
}

/// Offsets and bytes: a part of them, ones for them, and nearer to the start.
fn simpler_writes(offset: u64, bytes: &[u8]) -> Vec<(u64, Vec<u8>)> {
    let mut simpler = Vec::new();
    let length = bytes.len();
    for shorter in shorter(length as u64) {
        let cut = length - shorter as usize;
        simpler.push((offset, bytes[..length - cut].to_vec()));
        simpler.push((offset + cut as u64, bytes[cut..].to_vec()));
    }
    if bytes.iter().any(|&byte| byte != 1) {
        simpler.push((offset, vec![1; length]));
    }
    if offset > 0 {
        simpler.push((0, bytes.to_vec()));
        simpler.push((offset / 2, bytes.to_vec()));
    }
    simpler
}

/// Shorter lengths, the shortest first; the last ones take ever less away, so
/// that a bound in between is soon met.
fn shorter(length: u64) -> impl Iterator<Item = u64> {
    let halves = [1, length / 16, length / 2];
    let less = [8, 128, 2_048, length].map(|part| length - length.checked_div(part).unwrap_or(0));
    let within = move |shorter: &u64| (1..length).contains(shorter);
    halves.into_iter().chain(less).filter(within)
}

/// Lists of fewer triples, then of shorter ones and from the start on, each with
/// the length of the output or of the bytes. What that has more than the
/// lengths, or less, stays as it is, or goes.
fn simpler_lists(list: &[u8], length: usize) -> Vec<(Vec<u8>, usize)> {
    let triples: Vec<Triple> = Triple::all(list).collect();
    let rest = &list[triples.len() * TRIPLE_BYTES..];
    let spare = length as i128 - lengths(&triples) as i128;
    let list = |triples: &[Triple], rest: &[u8], spare: i128| {
        let wanted = lengths(triples) as i128 + spare;
        let length = wanted.clamp(0, length as i128) as usize;
        ([&Triple::list(triples), rest].concat(), length)
    };
    let fewer = fewer_triples(&triples).into_iter();
    let mut simpler: Vec<_> = fewer.map(|fewer| list(&fewer, rest, spare)).collect();
    if !rest.is_empty() {
        simpler.push(list(&triples, &[], spare));
    }
    if spare > 0 {
        simpler.push(list(&triples, rest, 0));
    }
    let others = simpler_triples(&triples).into_iter();
    simpler.extend(others.map(|others| list(&others, rest, spare)));
    simpler
}

/// One half of the triples, and all but one of them.
fn fewer_triples(triples: &[Triple]) -> Vec<Vec<Triple>> {
    let (first, second) = triples.split_at(triples.len() / 2);
    let mut fewer = Vec::new();
    if !first.is_empty() {
        fewer.extend([first.to_vec(), second.to_vec()]);
    }
    for at in 0..triples.len() {
        fewer.push([&triples[..at], &triples[at + 1..]].concat());
    }
    fewer
}

/// As many triples, one of them shorter or from the start on.
fn simpler_triples(triples: &[Triple]) -> Vec<Vec<Triple>> {
    let mut simpler = Vec::new();
    for (at, &triple) in triples.iter().enumerate() {
        let mut with = |triple: Triple| {
            let mut others = triples.to_vec();
            others[at] = triple;
            simpler.push(others);
        };
        for length in shorter(triple.length) {
            with(Triple { length, ..triple });
        }
        if triple.offset > 0 {
            let offset = 0;
            with(Triple { offset, ..triple });
        }
    }
    simpler
}

type Simpler = Box<dyn Fn(&Store) -> Store>;

/// A change of the volume, as a change of the store.
fn of_volume(change: impl Fn(&mut Volume) + 'static) -> Simpler {
    Box::new(move |store| {
        let mut volume = Volume::decode(store);
        change(&mut volume);
        let mut simpler = store.clone();
        volume.encode(&mut simpler);
        simpler
    })
}

/// Ways to make a store simpler, the coarse ones first.
fn simpler_stores(store: &Store) -> impl Iterator<Item = Simpler> {
    let volume = Volume::decode(store);
    let mut ways: Vec<Simpler> = vec![
        Box::new(|store| without_last_free_blocks(store, |_| 0)),
        Box::new(|store| without_last_free_blocks(store, |free| free / 2)),
        Box::new(|store| without_last_free_blocks(store, |free| free.saturating_sub(1))),
    ];
    for at in 0..volume.cards.len() {
        ways.push(of_volume(move |v| {
            let card = v.cards.remove(at);
            v.extents.retain(|extent| extent.object != card.object);
            v.groups.retain(|group| group.object != card.object);
        }));
    }
    ways.push(of_volume(|v| v.retired.fill(false)));
    ways.push(of_volume(only_needed_blocks_used));
    ways.push(of_volume(|v| v.hint = 0));
    ways.push(of_volume(|v| v.reserved = 0));
    for at in 0..volume.groups.len() {
        ways.push(of_volume(move |v| {
            v.groups.remove(at);
        }));
    }
    for at in 0..volume.extents.len() {
        ways.push(of_volume(move |v| {
            v.extents.remove(at);
        }));
    }
    // The first or the second half of a group's slots.
    for at in 0..volume.groups.len() {
        for first in [true, false] {
            ways.push(of_volume(move |v| {
                half_of_the_slots(&mut v.groups[at], first)
            }));
        }
    }
    for (at, card) in volume.cards.iter().enumerate() {
        let of_card = |extent: &&Extent| extent.object == card.object;
        let count = volume.extents.iter().filter(of_card).map(|e| e.count).sum();
        ways.push(of_volume(move |v| v.cards[at].allocated = count));
    }
    // Zeros in the image: everywhere, then in ever shorter stretches.
    let blocks = volume.used.len();
    let mut stretch = blocks;
    while stretch > 0 {
        for from in (0..blocks).step_by(stretch) {
            let to = (from + stretch).min(blocks);
            ways.push(Box::new(move |store| {
                let mut simpler = store.clone();
                simpler.image[from * BLOCK_BYTES..to * BLOCK_BYTES].fill(0);
                simpler
            }));
        }
        stretch /= 4;
    }
    ways.into_iter()
}

fn half_of_the_slots(group: &mut Group, first: bool) {
    let present: Vec<usize> = (0..group.slots.len())
        .filter(|n| group.slots[*n].is_some())
        .collect();
    let (head, tail) = present.split_at(present.len() / 2);
    for &slot in if first { tail } else { head } {
        group.slots[slot] = None;
    }
}

/// Without the free blocks at the end, or with so many of them left.
fn without_last_free_blocks(store: &Store, left: impl Fn(usize) -> usize) -> Store {
    let mut volume = Volume::decode(store);
    let used = volume.used.iter().rposition(|used| *used);
    let behind = used.map_or(0, |last| last + 1);
    let blocks = (behind + left(volume.used.len() - behind)).max(1);
    volume.used.truncate(blocks);
    volume.retired.truncate(blocks);
    let mut simpler = Store::blank(
        volume.blocks(),
        store.card_places(),
        store.extent_places(),
        store.group_places(),
    );
    let length = simpler.image.len();
    simpler.image.copy_from_slice(&store.image[..length]);
    volume.encode(&mut simpler);
    simpler
}

/// No used block beside the reserved, the retired and the mapped ones.
fn only_needed_blocks_used(volume: &mut Volume) {
    for block in volume.reserved as usize..volume.used.len() {
        volume.used[block] = volume.retired[block];
    }
    for extent in &volume.extents {
        volume.used[extent.physical as usize..][..extent.count as usize].fill(true);
    }
}

/// A store and a call in words.
pub fn describe(store: &Store, call: &Call) -> String {
    let mut text = String::new();
    if model::run(&mut store.clone(), &Call::Fill).number == 1 {
        let lengths = store.buffers().map(Vec::len);
        let _ = writeln!(
            text,
            "store: refused by 1; its buffers' lengths: {lengths:?}"
        );
        let _ = writeln!(text, "  head {:02x?}", store.head);
        return text + &describe_call(call);
    }
    let volume = Volume::decode(store);
    let blocks_of =
        |bits: &[bool]| -> Vec<usize> { (0..bits.len()).filter(|&block| bits[block]).collect() };
    let _ = writeln!(
        text,
        "store: {} blocks, {} reserved, hint {}; places: {} cards, {} extents, {} groups",
        volume.blocks(),
        volume.reserved,
        volume.hint,
        store.card_places(),
        store.extent_places(),
        store.group_places()
    );
    for card in &volume.cards {
        let time = |time: Time| format!("{}.{:09}", time.seconds, time.nanoseconds);
        let _ = writeln!(
            text,
            "  card {}: size {}, allocated {}, changed {}, created {}",
            card.object,
            card.size,
            card.allocated,
            time(card.changed),
            time(card.created)
        );
    }
    for e in &volume.extents {
        let _ = writeln!(
            text,
            "  extent of {}: logical {}, physical {}, count {}",
            e.object, e.logical, e.physical, e.count
        );
    }
    for group in &volume.groups {
        let slots: Vec<String> = (0..group.slots.len())
            .filter_map(|n| group.slots[n].map(|crc| format!("{n}: {crc:08x}")))
            .collect();
        let _ = writeln!(
            text,
            "  group {} of {}: slots {{{}}}",
            group.number,
            group.object,
            slots.join(", ")
        );
    }
    if volume.used.len() <= 1_000 {
        let _ = writeln!(text, "  used {:?}", blocks_of(&volume.used));
        let _ = writeln!(text, "  retired {:?}", blocks_of(&volume.retired));
    }
    text + &describe_call(call)
}

fn describe_call(call: &Call) -> String {
    match call {
        Call::Write {
            object,
            offset,
            bytes,
            time,
        }
        | Call::WriteArchive {
            object,
            offset,
            bytes,
            time,
        } => format!(
            "call: {} object {object} offset {offset}, {} bytes, {time:?}\n",
            call.name(),
            bytes.len()
        ),
        Call::ReadMany { list, length } => format!(
            "call: read_many {}, into {length} bytes\n",
            describe_list(list)
        ),
        Call::WriteBatch { list, bytes, time } => format!(
            "call: write_batch {}, of {} bytes, {time:?}\n",
            describe_list(list),
            bytes.len()
        ),
        call => format!("call: {call:?}\n"),
    }
}

fn describe_list(list: &[u8]) -> String {
    let triples: Vec<(u64, u64, u64)> = Triple::all(list)
        .map(|triple| (triple.object, triple.offset, triple.length))
        .collect();
    let rest = list.len() % TRIPLE_BYTES;
    format!("(object, offset, length) {triples:?} and {rest} bytes")
}
