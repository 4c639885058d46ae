//! W-202, worked out by hand: fill counts, and divides by, the blocks that are
//! not reserved.

use sangueko::{Places, Refusal, StoreBuf};

fn buffers(blocks: usize) -> StoreBuf {
    let places = Places {
        cards: 1,
        extents: 8,
        groups: 1,
    };
    StoreBuf::new(blocks, places).unwrap()
}

/// Document 01's `layout`: "After its last step [it] shows six of seven, 857."
#[test]
fn the_store_of_layout_is_857_full() {
    let mut buffers = buffers(8);
    let mut store = buffers.lend();
    store.fresh(&[0; 16], 1).unwrap();
    assert_eq!(store.fill(), Ok(0));
    store.enter(7, 1, 0).unwrap();
    assert_eq!(store.fill(), Ok(0));
    store.write(7, 0, &[1; 9_000], 2, 0).unwrap();
    assert_eq!(store.fill(), Ok(428)); // blocks 1 to 3
    store.write(7, 5_000, &[2; 10], 3, 0).unwrap();
    assert_eq!(store.fill(), Ok(714)); // 4 and 5 too; 2 and 3 are retired
    assert_eq!(store.grow(7, 20_000, 4, 0), Err(Refusal::NoSpace));
    assert_eq!(store.fill(), Ok(714));
    assert_eq!(store.settle(), Ok(2));
    assert_eq!(store.fill(), Ok(428));
    store.grow(7, 20_000, 5, 0).unwrap();
    assert_eq!(store.fill(), Ok(857)); // 1 to 4 and 6, and 5, which is retired
    assert_eq!(store.settle(), Ok(1));
    assert_eq!(store.fill(), Ok(714));
}

/// From no reserved block to all of them, nothing written and the rest full.
#[test]
fn reserved_blocks_count_in_neither_number() {
    for blocks in [1usize, 2, 7, 64, 65, 130] {
        for reserved in 0..=blocks {
            let mut buffers = buffers(blocks);
            buffers.lend().fresh(&[0; 16], reserved as u64).unwrap();
            assert_eq!(buffers.lend().fill(), Ok(0), "{reserved} of {blocks}");
            let usable = blocks - reserved;
            for used in 1..=usable {
                let block = blocks - used; // from the last one down
                buffers.used[block / 8] |= 1 << (block % 8);
                let fill = (used * 1_000 / usable) as u64;
                assert_eq!(buffers.lend().fill(), Ok(fill), "{used} of {usable}");
            }
        }
    }
}
