//! The broken stores at the head of the recorded answers: words of refusals 1
//! and 2, some of which break other words besides, and enter's refusals. The
//! Rust has no such calls. `alone` breaks each word alone, everywhere and for
//! every call; these stay as they are recorded.

use model::records::{CARD_BYTES, CARD_SPARE, EXTENT_BYTES, GROUP_BYTES, put_bits};
use model::{Call, Card, Extent, Group, Store, Time, Volume};

pub struct Broken {
    pub name: &'static str,
    pub number: u32,
    pub store: Store,
    pub call: Call,
}

const TIME: Time = Time {
    seconds: 5,
    nanoseconds: 6,
};

/// 20 blocks, 2 of them reserved, files 7 and 9, some blocks retired.
pub fn sound_store() -> Store {
    let mut store = Store::blank(20, 4, 8, 4);
    let write = |object, offset, length: u32| Call::Write {
        object,
        offset,
        bytes: (0..length).map(|n| (n * 7) as u8).collect(),
        time: TIME,
    };
    let enter = |object| Call::Enter {
        object,
        time: Time::new(3, object),
    };
    let calls = [
        Call::Fresh {
            uuid: (1..=16).collect(),
            reserved: 2,
        },
        enter(7),
        enter(9),
        write(7, 0, 9_000),
        write(9, 0, 20_000),
        write(7, 5_000, 10),
    ];
    for call in calls {
        assert_eq!(model::run(&mut store, &call).number, 0);
    }
    store
}

/// Every recorded broken store. The calls on them go round; fresh tries only
/// 1.
pub fn broken_stores() -> Vec<Broken> {
    let sound = sound_store();
    let mut all = Vec::new();
    let calls = [
        Call::Fill,
        Call::Settle,
        Call::Enter {
            object: 8,
            time: TIME,
        },
        Call::Write {
            object: 7,
            offset: 100,
            bytes: vec![1, 2, 3],
            time: TIME,
        },
        Call::Grow {
            object: 9,
            size: 30_000,
            time: TIME,
        },
        Call::Read {
            object: 7,
            offset: 0,
            length: 50,
        },
    ];
    let mut add = |name, number, change: &dyn Fn(&mut Store)| {
        let mut store = sound.clone();
        change(&mut store);
        let call = calls[all.len() % calls.len()].clone();
        all.push(Broken {
            name,
            number,
            store,
            call,
        });
    };
    let head =
        |at, width, value| move |store: &mut Store| put_bits(&mut store.head, at, width, value);

    add("no image", 1, &|s| s.image.clear());
    add("image of broken blocks", 1, &|s| s.image.truncate(4_097));
    add("a block more than the head says", 1, &|s| {
        s.image.resize(21 * 4_096, 0);
    });
    add("used map too long", 1, &|s| s.used.resize(16, 0));
    add("used map too short", 1, &|s| s.used.truncate(7));
    add("retired map too long", 1, &|s| s.retired.resize(9, 0));
    add("no retired map", 1, &|s| s.retired.clear());
    add("cards not whole", 1, &|s| s.cards.push(0));
    add("extents not whole", 1, &|s| {
        s.extents.truncate(EXTENT_BYTES * 8 - 1);
    });
    add("groups not whole", 1, &|s| s.groups.push(0));
    add("head too short", 1, &|s| s.head.truncate(27));
    add("head too long", 1, &|s| s.head.push(0));
    add("head with other blocks", 1, &head(128, 17, 19));
    add("reserved above blocks", 1, &head(145, 17, 21));
    add("more cards than places", 1, &head(164, 20, 5));
    add("more extents than places", 1, &head(184, 20, 9));
    add("more groups than places", 1, &head(204, 20, 5));

    add("cards out of order", 2, &|s| {
        swap_records(&mut s.cards, CARD_BYTES);
    });
    add("cards equal", 2, &|s| {
        s.cards.copy_within(..CARD_BYTES, CARD_BYTES);
    });
    add("extents out of order", 2, &|s| {
        swap_records(&mut s.extents, EXTENT_BYTES);
    });
    add("extents equal", 2, &|s| {
        s.extents.copy_within(..EXTENT_BYTES, EXTENT_BYTES);
    });
    add("groups out of order", 2, &|s| {
        swap_records(&mut s.groups, GROUP_BYTES);
    });
    add("groups equal", 2, &|s| {
        s.groups.copy_within(..GROUP_BYTES, GROUP_BYTES);
    });
    add("a byte after the cards", 2, &|s| {
        s.cards[4 * CARD_BYTES - 1] = 1;
    });
    add("a byte after the extents", 2, &|s| {
        s.extents[7 * EXTENT_BYTES] = 1;
    });
    add("a byte after the groups", 2, &|s| {
        s.groups[2 * GROUP_BYTES] = 1;
    });
    add("extent with another kind", 2, &|s| s.extents[8] = 4);
    add("extent with a byte at its end", 2, &|s| {
        s.extents[EXTENT_BYTES - 1] = 1;
    });
    add("group with another kind", 2, &|s| s.groups[8] = 3);
    let volume = |change: fn(&mut Volume)| {
        move |store: &mut Store| {
            let mut volume = Volume::decode(store);
            change(&mut volume);
            volume.encode(store);
        }
    };
    add("card with a spare bit", 2, &|s| {
        put_bits(&mut s.cards, CARD_SPARE.end - 1, 1, 1);
    });
    add(
        "nanoseconds",
        2,
        &volume(|v| v.cards[0].changed.nanoseconds = 1_000_000_000),
    );
    add("slot not present but not zero", 2, &|s| {
        s.groups[GROUP_BYTES - 1] = 1;
    });
    add("extent of no block", 2, &volume(|v| v.extents[0].count = 0));
    add("extents overlap", 2, &volume(|v| v.extents[0].count = 2));
    add(
        "extent past the device",
        2,
        &volume(|v| v.extents[0].physical = 20),
    );
    add(
        "extent far past the device",
        2,
        &volume(|v| {
            v.extents[0].physical = u64::MAX;
        }),
    );
    add(
        "extent past the file's blocks",
        2,
        &volume(|v| {
            let last = v.extents.len() - 1;
            v.extents[last].logical += 1;
        }),
    );
    add(
        "extent whose end overflows",
        2,
        &volume(|v| {
            let last = v.extents.len() - 1;
            v.extents[last].logical = u64::MAX;
            v.extents[last].count = 4_294_967_295;
        }),
    );
    add(
        "extent without a card",
        2,
        &volume(|v| {
            v.cards.remove(1);
        }),
    );
    add(
        "mapped block not used",
        2,
        &volume(|v| {
            v.used[v.extents[0].physical as usize] = false;
        }),
    );
    add(
        "mapped block retired",
        2,
        &volume(|v| {
            v.retired[v.extents[0].physical as usize] = true;
        }),
    );
    add("mapped block reserved", 2, &volume(|v| v.reserved = 3));
    add("reserved block not used", 2, &volume(|v| v.used[0] = false));
    add(
        "reserved block retired",
        2,
        &volume(|v| v.retired[1] = true),
    );
    add(
        "retired block not used",
        2,
        &volume(|v| v.retired[19] = true),
    );
    add("used bit past the last block", 2, &|s| s.used[2] |= 1 << 4);
    add("retired bit past the last block", 2, &|s| {
        s.retired[7] |= 1 << 7
    });

    for (name, number, uuid, reserved) in [
        ("fresh with a short uuid", 1, 15, 2),
        ("fresh with a long uuid", 1, 17, 2),
        ("fresh with too many reserved", 1, 16, 21),
        ("fresh with 2^64 - 1 reserved", 1, 16, u64::MAX),
        ("fresh with all reserved", 0, 16, 20),
    ] {
        all.push(Broken {
            name,
            number,
            store: sound.clone(),
            call: Call::Fresh {
                uuid: vec![4; uuid],
                reserved,
            },
        });
    }
    // Fresh reads neither the head nor the books and maps.
    let mut wild = sound.clone();
    for buffer in wild.buffers_mut().into_iter().skip(1) {
        buffer.fill(255);
    }
    all.push(Broken {
        name: "fresh over bytes that are nothing",
        number: 0,
        store: wild,
        call: Call::Fresh {
            uuid: vec![4; 16],
            reserved: 3,
        },
    });
    // Enter's refusals, in their order.
    let late = Time {
        seconds: model::MAX_SIZE + 1,
        nanoseconds: 0,
    };
    let uneven = Time {
        seconds: 0,
        nanoseconds: 1_000_000_000,
    };
    let mut full = sound.clone();
    full.cards.truncate(2 * CARD_BYTES);
    for (name, number, store, object, time) in [
        (
            "enter a file that is there, at a bad time",
            4,
            &sound,
            7,
            late,
        ),
        ("enter at seconds past 2^63 - 1", 7, &full, 8, late),
        ("enter at nanoseconds past 10^9 - 1", 7, &sound, 8, uneven),
        ("enter with no free place", 8, &full, 8, TIME),
        ("enter before the others", 0, &sound, 0, TIME),
        ("enter between the others", 0, &sound, 8, TIME),
        ("enter after the others", 0, &sound, u64::MAX, TIME),
    ] {
        all.push(Broken {
            name,
            number,
            store: store.clone(),
            call: Call::Enter { object, time },
        });
    }
    // What refusal 2 does not speak of.
    let mut odd = sound.clone();
    let mut volume = Volume::decode(&odd);
    volume.groups.push(Group::empty(u64::MAX, u64::MAX));
    volume.hint = 3;
    volume.used[19] = true;
    volume.cards.push(Card {
        object: 11,
        size: model::MAX_SIZE,
        allocated: model::MAX_ALLOCATED,
        changed: Time::new(model::MAX_SIZE, 999_999_999),
        created: Time::new(model::MAX_SIZE, 999_999_999),
    });
    volume.extents.push(Extent {
        object: 11,
        logical: model::MAX_SIZE / 4_096,
        physical: volume.extents[0].physical,
        count: 1,
    });
    volume.encode(&mut odd);
    for call in [
        Call::Fill,
        Call::Settle,
        Call::Read {
            object: 7,
            offset: 0,
            length: 9_001,
        },
    ] {
        all.push(Broken {
            name: "odd, but neither 1 nor 2",
            number: 0,
            store: odd.clone(),
            call,
        });
    }
    all
}

fn swap_records(book: &mut [u8], record: usize) {
    let (first, second) = book.split_at_mut(record);
    first.swap_with_slice(&mut second[..record]);
}

#[cfg(test)]
mod tests {
    use super::*;

    #[test]
    fn each_broken_store_is_refused_by_its_number_and_left_alone() {
        assert!(model::passes_refusals_1_and_2(&sound_store()));
        for broken in broken_stores() {
            let mut store = broken.store.clone();
            let answer = model::run(&mut store, &broken.call);
            assert_eq!(answer.number, broken.number, "{}", broken.name);
            assert!(broken.number == 0 || store == broken.store);
        }
    }

    #[test]
    fn books_of_over_1_048_575_places_are_refused_by_1() {
        let mut store = sound_store();
        store.cards.resize(1_048_575 * CARD_BYTES, 0);
        assert_eq!(model::run(&mut store, &Call::Fill).number, 0);
        store.cards.resize(1_048_576 * CARD_BYTES, 0);
        assert_eq!(model::run(&mut store, &Call::Fill).number, 1);
    }
}
