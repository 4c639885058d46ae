//! W-208: new blocks in one run where one exists. Each case is a volume, a call
//! and the blocks in which file 7 then lies. The cases of one list share a store,
//! whose image goes on from case to case.

use std::ops::Range;
use std::sync::Arc;

use model::{
    BLOCK_BYTES, BLOCKS_PER_UNIT, Call, Card, Extent, GROUP_BLOCKS, Group, Store, Time, UNIT_BYTES,
    Volume,
};

use crate::alone::seal;
use crate::edges::{Edge, edge, grow, with, write};
use crate::mixed::exchanged;
use crate::writes::write_batch;

const BLOCK: u64 = BLOCK_BYTES as u64;

/// Blocks side by side: the first, and how many.
type Run = (u64, u64);

/// A call on a volume, and where file 7 then lies.
pub struct Case {
    pub name: &'static str,
    pub volume: Volume,
    pub call: Call,
    /// The blocks of file 7 after the call, in its order.
    pub blocks: Vec<u64>,
    /// The head's hint after it.
    pub hint: u64,
}

/// Cases on one store.
pub struct Cases {
    pub store: Store,
    pub cases: Vec<Case>,
    /// Where file 7 lies before a call, if it has blocks: never free, so that no
    /// case writes there and the image holds what the first case found.
    home: Range<u64>,
}

fn blocks_of(runs: &[Run]) -> Vec<u64> {
    runs.iter()
        .flat_map(|&(first, number)| first..first + number)
        .collect()
}

/// The blocks of file 7, in its order.
pub fn file(volume: &Volume) -> Vec<u64> {
    let extents = volume.extents.iter().filter(|extent| extent.object == 7);
    extents
        .flat_map(|extent| extent.physical..extent.physical + extent.count)
        .collect()
}

/// A write to an empty file whose units want so many blocks: all but the last 16.
fn units(wanted: &[u64]) -> Call {
    let (last, before) = wanted.split_last().expect("a unit");
    assert!(before.iter().all(|wanted| *wanted == BLOCKS_PER_UNIT));
    let blocks = before.len() as u64 * BLOCKS_PER_UNIT + last;
    write(7, 0, (blocks * BLOCK) as usize)
}

/// These blocks of file 7 overwritten.
fn over(first: u64, number: u64) -> Call {
    write(7, first * BLOCK, (number * BLOCK) as usize)
}

/// The writes of a batch: from which block on, and how many.
fn batch(writes: &[Run]) -> Call {
    let writes: Vec<(u64, u64, u64)> = writes
        .iter()
        .map(|(first, number)| (7, first * BLOCK, number * BLOCK))
        .collect();
    write_batch(&writes)
}

impl Cases {
    fn new(blocks: u64, home: Range<u64>) -> Self {
        let mut store = Store::blank(blocks, 2, 60, 3);
        // Every block ends with zeros, so that a file may end in each of them.
        for block in home.clone() {
            let block = &mut store.image[block as usize * BLOCK_BYTES..][..BLOCK_BYTES - 5];
            for (at, byte) in block.iter_mut().enumerate() {
                *byte = (at % 247) as u8;
            }
        }
        Self {
            store,
            cases: Vec::new(),
            home,
        }
    }

    /// File 7 of so many bytes in these blocks, and only these blocks free.
    fn volume(&mut self, size: u64, file: &[Run], hint: u64, free: &[Run]) -> Volume {
        let blocks = self.store.image.len() / BLOCK_BYTES;
        let mut volume = Volume {
            uuid: [6; 16],
            reserved: 0,
            hint,
            cards: vec![Card {
                object: 7,
                size,
                allocated: file.iter().map(|run| run.1).sum(),
                changed: Time::new(1, 2),
                created: Time::new(3, 4),
            }],
            extents: Vec::new(),
            groups: Vec::new(),
            used: vec![true; blocks],
            retired: vec![false; blocks],
        };
        for block in blocks_of(free) {
            assert!(!self.home.contains(&block), "a case writes over the file");
            volume.used[block as usize] = false;
        }
        let mut logical = 0;
        for &(physical, count) in file {
            volume.extents.push(Extent {
                object: 7,
                logical,
                physical,
                count,
            });
            logical += count;
        }
        if size > 0 {
            volume.groups.push(Group::empty(7, 0));
            seal(&mut volume, &mut self.store.image);
        }
        volume
    }

    fn case(&mut self, name: &'static str, volume: &Volume, call: Call, blocks: &[u64], hint: u64) {
        self.cases.push(Case {
            name,
            volume: volume.clone(),
            call,
            blocks: blocks.to_vec(),
            hint,
        });
    }

    /// Units of an empty file that want so many blocks each, where only `free` is
    /// free: by a write, an archive write and a batch of one write.
    fn empty(
        &mut self,
        name: &'static str,
        (hint, free): (u64, &[Run]),
        wanted: &[u64],
        (blocks, hint_after): (&[Run], u64),
    ) {
        let volume = self.volume(0, &[], hint, free);
        let call = units(wanted);
        let one = batch(&[(0, wanted.iter().sum())]);
        let archive = exchanged(&call).expect("a write");
        for call in [call, archive, one] {
            self.case(name, &volume, call, &blocks_of(blocks), hint_after);
        }
    }
}

/// Cases in one allocation group, on 200 blocks.
pub fn small() -> Cases {
    // A word's end is behind block 191, and the last word is not whole.
    let mut cases = Cases::new(200, 150..166);
    cursor(&mut cases);
    one_block(&mut cases);
    which_run(&mut cases);
    every_length(&mut cases);
    seams(&mut cases);
    ends(&mut cases);
    kept(&mut cases);
    batches(&mut cases);
    cases
}

/// Where no run is long enough, the present rule goes on from the highest block
/// that the call has taken, by a run as well.
fn cursor(cases: &mut Cases) {
    let name = "the cursor behind a run";
    let mut case = |free: &[Run], wanted: &[u64], blocks: &[Run]| {
        cases.empty(name, (0, free), wanted, (blocks, 0));
    };
    case(
        &[(3, 1), (10, 16), (30, 1), (32, 1)],
        &[16, 2],
        &[(10, 16), (30, 1), (32, 1)],
    );
    // Around: behind the run there is one alone.
    case(
        &[(3, 1), (5, 1), (10, 16), (30, 1)],
        &[16, 2],
        &[(10, 16), (3, 1), (30, 1)],
    );
    // The run lies at the group's end: from the start.
    case(
        &[(3, 1), (5, 1), (184, 16)],
        &[16, 2],
        &[(184, 16), (3, 1), (5, 1)],
    );
    // Behind the higher of two runs.
    case(
        &[(3, 16), (21, 1), (60, 16), (78, 1), (80, 1)],
        &[16, 16, 2],
        &[(3, 16), (60, 16), (78, 1), (80, 1)],
    );
    // By the present rule twice; and by a run, by the present rule, by a run.
    case(
        &[(1, 1), (3, 15), (20, 1), (22, 1), (24, 1), (26, 1), (28, 1)],
        &[16, 3],
        &[(1, 1), (3, 15), (20, 1), (22, 1), (24, 1)],
    );
    case(
        &[
            (1, 1),
            (3, 15),
            (20, 1),
            (22, 1),
            (30, 16),
            (50, 1),
            (52, 1),
        ],
        &[16, 16, 2],
        &[(30, 16), (1, 1), (3, 13), (50, 1), (52, 1), (16, 2)],
    );
}

/// One block is a run of one: the lowest free one, wherever the cursor is.
fn one_block(cases: &mut Cases) {
    let name = "one block wanted";
    let mut case = |free: &[Run], wanted: &[u64], blocks: &[Run]| {
        cases.empty(name, (0, free), wanted, (blocks, 0));
    };
    case(&[(5, 1), (9, 1), (20, 20)], &[1], &[(5, 1)]);
    case(&[(0, 1)], &[1], &[(0, 1)]);
    case(&[(199, 1)], &[1], &[(199, 1)]);
    case(&[(3, 1), (10, 16), (30, 1)], &[16, 1], &[(10, 16), (3, 1)]);
    case(&[(10, 17)], &[16, 1], &[(10, 16), (26, 1)]);
}

/// The lowest run that is long enough, and of it the first blocks.
fn which_run(cases: &mut Cases) {
    let name = "which run";
    let mut case = |free: &[Run], wanted: &[u64], blocks: &[Run]| {
        cases.empty(name, (0, free), wanted, (blocks, 0));
    };
    // Not the longest, the shortest or the highest that is long enough.
    case(
        &[(2, 2), (6, 5), (20, 9), (40, 3), (60, 4)],
        &[3],
        &[(6, 3)],
    );
    case(
        &[(2, 2), (6, 5), (20, 9), (40, 3), (60, 4)],
        &[5],
        &[(6, 5)],
    );
    case(
        &[(2, 2), (6, 5), (20, 9), (40, 3), (60, 4)],
        &[6],
        &[(20, 6)],
    );
    // What earlier units took is not free: the rest of a run is one.
    case(&[(10, 18)], &[16, 2], &[(10, 18)]);
    case(&[(10, 17), (30, 2)], &[16, 2], &[(10, 16), (30, 2)]);
    case(&[(10, 31), (50, 16)], &[16, 16], &[(10, 16), (50, 16)]);
    case(&[(10, 32), (50, 16)], &[16, 16], &[(10, 32)]);
    case(&[(10, 40), (60, 16)], &[16, 16, 9], &[(10, 32), (60, 9)]);
    // The lowest, and not the first behind the cursor.
    case(&[(3, 2), (10, 16), (30, 2)], &[16, 2], &[(10, 16), (3, 2)]);
    case(
        &[(3, 16), (30, 2), (60, 16), (80, 16)],
        &[16, 16, 16],
        &[(3, 16), (60, 16), (80, 16)],
    );
    // Single blocks before a run are left.
    case(&[(1, 1), (3, 1), (5, 1), (90, 3)], &[3], &[(90, 3)]);
    // No run: the lowest.
    case(
        &[(1, 1), (3, 1), (5, 2), (90, 2)],
        &[3],
        &[(1, 1), (3, 1), (5, 1)],
    );
    // A retired block is not free.
    let mut volume = cases.volume(0, &[], 0, &[(3, 2), (6, 3)]);
    volume.retired[5] = true;
    cases.case(
        "a retired block in a run",
        &volume,
        units(&[3]),
        &[6, 7, 8],
        0,
    );
    cases.case(
        "a retired block in a run",
        &volume,
        units(&[4]),
        &[3, 4, 6, 7],
        0,
    );
}

/// Every number wanted against runs of every length, in three orders, and against
/// one run beside single blocks.
fn every_length(cases: &mut Cases) {
    let ascending = [
        (0, 1),
        (2, 2),
        (5, 3),
        (9, 4),
        (14, 5),
        (20, 6),
        (27, 7),
        (35, 8),
        (44, 9),
        (54, 10),
        (65, 11),
        (77, 12),
        (90, 13),
        (104, 14),
        (119, 15),
        (135, 14),
        (166, 16),
    ];
    let starts = [
        0, 2, 5, 9, 14, 20, 27, 35, 44, 54, 65, 77, 90, 104, 119, 166,
    ];
    for (wanted, start) in (1..).zip(starts) {
        let blocks = [(start, wanted)];
        cases.empty("runs ever longer", (0, &ascending), &[wanted], (&blocks, 0));
    }
    let mixed = [
        (1, 3),
        (6, 8),
        (16, 2),
        (20, 12),
        (34, 1),
        (37, 11),
        (50, 16),
        (68, 13),
        (83, 4),
        (89, 16),
    ];
    let starts = [1, 1, 1, 6, 6, 6, 6, 6, 20, 20, 20, 20, 50, 50, 50, 50];
    for (wanted, start) in (1..).zip(starts) {
        let blocks = [(start, wanted)];
        cases.empty("runs of many lengths", (0, &mixed), &[wanted], (&blocks, 0));
    }
    let descending = [(3, 16), (20, 15), (36, 14), (51, 13), (65, 12), (78, 11)];
    for wanted in 1..=16 {
        let blocks = [(3, wanted)];
        cases.empty(
            "runs ever shorter",
            (0, &descending),
            &[wanted],
            (&blocks, 0),
        );
    }
    // Sixteen single blocks at 2, 4, .. 32, and one run at 40.
    for length in 1..=16 {
        let mut free: Vec<Run> = (1..=16).map(|n| (2 * n, 1)).collect();
        free.push((40, length));
        for wanted in 1..=16 {
            let blocks: Vec<u64> = match wanted {
                1 => vec![2],
                _ if wanted <= length => (40..40 + wanted).collect(),
                _ => (1..=wanted).map(|n| 2 * n).collect(),
            };
            let volume = cases.volume(0, &[], 0, &free);
            let name = "a run beside single blocks";
            cases.case(name, &volume, units(&[wanted]), &blocks, 0);
        }
    }
}

/// Runs of just the length that end at a byte's or a word's end, begin there and
/// lie over it, with a block less on either side of a used one before them.
fn seams(cases: &mut Cases) {
    for wanted in 1..=16 {
        for seam in [56, 64, 128] {
            for before in [0, wanted / 2, wanted] {
                let start = seam - before;
                let less = wanted - 1;
                let decoys = [(1, less), (1 + wanted, less)];
                let free: Vec<Run> = decoys
                    .into_iter()
                    .filter(|run| run.1 > 0)
                    .chain([(start, wanted)])
                    .collect();
                // The two before it do not adjoin it.
                assert!(2 * wanted < start);
                let name = "a run at a byte's or a word's end";
                let volume = cases.volume(0, &[], 0, &free);
                let blocks: Vec<u64> = (start..start + wanted).collect();
                cases.case(name, &volume, units(&[wanted]), &blocks, 0);
            }
        }
    }
    // Over two words' ends, of which one unit takes what another leaves.
    let free = [(60, 72)];
    let blocks = [(60, 69)];
    let name = "a run over two words' ends";
    cases.empty(name, (0, &free), &[16, 16, 16, 16, 5], (&blocks, 0));
    // A word that is all free, and one that is all used.
    let free = [(7, 1), (64, 64)];
    cases.empty("a whole word", (0, &free), &[16], (&[(64, 16)], 0));
    let free = [(62, 2), (128, 2), (132, 3)];
    cases.empty("a used word between", (0, &free), &[3], (&[(132, 3)], 0));
    let free = [(62, 2), (128, 2)];
    let blocks = [(62, 2), (128, 1)];
    cases.empty("a used word between", (0, &free), &[3], (&blocks, 0));
}

/// At the group's end, which is the store's: behind it no block is free, though the
/// maps' bits are clear.
fn ends(cases: &mut Cases) {
    let name = "a run at the store's end";
    for wanted in 1..=16 {
        let first = 200 - wanted;
        let just = [(5, 1), (first, wanted)];
        let blocks = [if wanted == 1 { (5, 1) } else { (first, wanted) }];
        cases.empty(name, (0, &just), &[wanted], (&blocks, 0));
        if wanted > 1 {
            let short = [(5, 1), (first + 1, wanted - 1)];
            cases.empty(name, (0, &short), &[wanted], (&short, 0));
        }
    }
    // At its start, one more than wanted, and all that is free.
    cases.empty(name, (0, &[(0, 4)]), &[3], (&[(0, 3)], 0));
    cases.empty(name, (0, &[(0, 16)]), &[16], (&[(0, 16)], 0));
    cases.empty(name, (0, &[(183, 17)]), &[16], (&[(183, 16)], 0));
}

/// A unit that keeps blocks wants the others of them in one run; and a grow, which
/// rewrites the old tail unit.
fn kept(cases: &mut Cases) {
    let name = "kept blocks and a run";
    let scattered = [(20, 1), (22, 1), (30, 3), (40, 16)];
    let whole = cases.volume(UNIT_BYTES, &[(150, 16)], 0, &scattered);
    let mut case = |call: Call, blocks: &[Run]| {
        let blocks = blocks_of(blocks);
        cases.case(name, &whole, call, &blocks, 0);
    };
    case(over(5, 3), &[(150, 5), (30, 3), (158, 8)]);
    case(over(5, 2), &[(150, 5), (30, 2), (157, 9)]);
    case(over(5, 1), &[(150, 5), (20, 1), (156, 10)]);
    case(over(12, 4), &[(150, 12), (40, 4)]);
    // Two units: the second goes on where the first left a run.
    case(over(12, 8), &[(150, 12), (40, 8)]);
    case(over(14, 5), &[(150, 14), (30, 2), (40, 3)]);
    // An archive write keeps none in the middle of the unit.
    let archive = |call: Call| exchanged(&call).expect("a write");
    case(archive(over(5, 3)), &[(40, 16)]);
    case(archive(over(13, 3)), &[(150, 13), (30, 3)]);
    // No run of four: the present rule, and what the unit keeps is not free.
    let few = cases.volume(UNIT_BYTES, &[(150, 16)], 0, &[(20, 1), (22, 1), (30, 3)]);
    let blocks = blocks_of(&[(150, 5), (20, 1), (22, 1), (30, 2), (159, 7)]);
    cases.case(name, &few, over(5, 4), &blocks, 0);

    let name = "a tail and a run";
    let size = 3 * BLOCK - 5;
    let tail = cases.volume(size, &[(150, 3)], 0, &[(1, 1), (3, 13), (30, 14), (60, 16)]);
    let mut case = |call: Call, blocks: &[Run]| {
        let blocks = blocks_of(blocks);
        cases.case(name, &tail, call, &blocks, 0);
    };
    // The last block is not whole, and new.
    case(grow(7, size + 1), &[(150, 2), (1, 1)]);
    case(grow(7, 5 * BLOCK), &[(150, 2), (3, 3)]);
    case(grow(7, 15 * BLOCK), &[(150, 2), (3, 13)]);
    case(grow(7, UNIT_BYTES), &[(150, 2), (30, 14)]);
    case(grow(7, 1 << 40), &[(150, 2), (30, 14)]);
    // The old tail unit, and a unit that is touched.
    case(write(7, UNIT_BYTES, 5_000), &[(150, 2), (30, 14), (3, 2)]);
    case(
        write(7, 2 * UNIT_BYTES, 65_536),
        &[(150, 2), (30, 14), (60, 16)],
    );
    case(write(7, 4 * BLOCK, 10), &[(150, 2), (3, 3)]);
    case(
        archive(write(7, UNIT_BYTES, 5_000)),
        &[(150, 2), (30, 14), (3, 2)],
    );
    // No run of 14.
    let free = [(1, 1), (3, 13), (30, 9)];
    let tail = cases.volume(size, &[(150, 3)], 0, &free);
    let blocks = blocks_of(&[(150, 2), (1, 1), (3, 13)]);
    cases.case(name, &tail, grow(7, UNIT_BYTES), &blocks, 0);
}

/// Each write of a batch begins anew: what the one before it took is used by then,
/// and there is no cursor.
fn batches(cases: &mut Cases) {
    let name = "the writes of a batch";
    let mut case = |free: &[Run], writes: &[Run], blocks: &[Run]| {
        let volume = cases.volume(0, &[], 0, free);
        cases.case(name, &volume, batch(writes), &blocks_of(blocks), 0);
    };
    // One write of both units goes on behind block 25.
    let free = [(3, 1), (10, 16), (30, 1), (32, 1)];
    case(&free, &[(0, 16), (16, 2)], &[(10, 16), (3, 1), (30, 1)]);
    let free = [(3, 1), (5, 1), (10, 32), (60, 1), (62, 1)];
    case(
        &free,
        &[(0, 16), (16, 16), (32, 2)],
        &[(10, 32), (3, 1), (5, 1)],
    );
    // A run that one write has left is the next one's.
    case(
        &[(3, 2), (10, 18)],
        &[(0, 16), (16, 2)],
        &[(10, 16), (3, 2)],
    );
    case(&[(3, 1), (10, 18)], &[(0, 16), (16, 2)], &[(10, 18)]);
    // The same blocks written twice: those of the first are retired, not free.
    case(
        &[(3, 2), (6, 1), (10, 2), (14, 3)],
        &[(0, 2), (0, 2), (0, 2)],
        &[(14, 2)],
    );
    case(
        &[(3, 2), (6, 1), (10, 2), (14, 1)],
        &[(0, 2), (0, 2), (0, 2)],
        &[(6, 1), (14, 1)],
    );
}

const THIRD: u64 = 2 * GROUP_BLOCKS;

/// Cases in three allocation groups, of which the last has 40 blocks.
pub fn wide() -> Cases {
    let mut cases = Cases::new(THIRD + 40, 50..66);
    edges_of_groups(&mut cases);
    order_of_groups(&mut cases);
    hints(&mut cases);
    wide_batches(&mut cases);
    wide_grows(&mut cases);
    cases
}

/// "A run does not cross a group's end."
fn edges_of_groups(cases: &mut Cases) {
    let name = "a run over a group's end";
    let mut case = |free: (u64, &[Run]), wanted: &[u64], blocks: (&[Run], u64)| {
        cases.empty(name, free, wanted, blocks);
    };
    let free: &[Run] = &[(5, 1), (7, 1), (16_382, 4)];
    case((0, free), &[4], (&[(5, 1), (7, 1), (16_382, 2)], 0));
    case((0, free), &[3], (&[(5, 1), (7, 1), (16_382, 1)], 0));
    case((0, free), &[2], (&[(16_382, 2)], 0));
    case((1, free), &[2], (&[(16_384, 2)], 1));
    case((1, free), &[4], (&[(5, 1), (7, 1), (16_384, 2)], 1));
    case((1, free), &[1], (&[(16_384, 1)], 1));
    // The present rule takes all four, and then they do adjoin.
    case((0, &[(16_382, 4)]), &[4], (&[(16_382, 4)], 1));
    case((2, &[(16_382, 4)]), &[3], (&[(16_382, 3)], 1));
    // Just long enough at either side, and a block short of it.
    let free: &[Run] = &[(3, 1), (16_380, 8)];
    case((0, free), &[4], (&[(16_380, 4)], 0));
    case((1, free), &[4], (&[(16_384, 4)], 1));
    case((0, free), &[5], (&[(3, 1), (16_380, 4)], 0));
    case((1, free), &[5], (&[(3, 1), (16_384, 4)], 1));
    case((2, free), &[5], (&[(3, 1), (16_380, 4)], 0));
    let free: &[Run] = &[(3, 1), (16_368, 32)];
    case((0, free), &[16], (&[(16_368, 16)], 0));
    case((0, free), &[16, 16], (&[(16_368, 32)], 1));
    case((1, free), &[16, 16], (&[(16_384, 16), (16_368, 16)], 0));
    let free: &[Run] = &[(3, 1), (16_369, 30)];
    case((0, free), &[16], (&[(3, 1), (16_369, 15)], 0));
    case((1, free), &[16], (&[(3, 1), (16_384, 15)], 1));
    // The second group's end, and the last one's, which is shorter.
    let free: &[Run] = &[(16_390, 1), (32_760, 16), (32_800, 8)];
    case((1, free), &[8], (&[(32_760, 8)], 1));
    case((1, free), &[9], (&[(16_390, 1), (32_760, 8)], 1));
    case((2, free), &[8], (&[(32_768, 8)], 2));
    case((2, free), &[9], (&[(32_768, 8), (32_800, 1)], 2));
    let free: &[Run] = &[(9, 1), (32_800, 8)];
    case((2, free), &[8], (&[(32_800, 8)], 2));
    case((2, free), &[9], (&[(9, 1), (32_800, 8)], 2));
    case((0, free), &[9], (&[(9, 1), (32_800, 8)], 2));
    case((0, free), &[8], (&[(32_800, 8)], 2));
    // The whole last group, and all of the store.
    case((2, &[(32_768, 40)]), &[16, 16, 8], (&[(32_768, 40)], 2));
    case(
        (2, &[(4, 1), (32_768, 40)]),
        &[16, 16, 9],
        (&[(32_768, 32), (4, 1), (32_800, 8)], 2),
    );
}

/// The first group from the hint on that has a run, and not the first that has free
/// blocks.
fn order_of_groups(cases: &mut Cases) {
    let name = "which group";
    let mut case = |free: (u64, &[Run]), wanted: &[u64], blocks: (&[Run], u64)| {
        cases.empty(name, free, wanted, blocks);
    };
    // One block: the lowest of the first group that has any.
    let free: &[Run] = &[(5, 1), (9, 3), (16_400, 1), (16_500, 2)];
    for (hint, block, after) in [(0, 5, 0), (1, 16_400, 1), (2, 5, 0), (3, 5, 0)] {
        case((hint, free), &[1], (&[(block, 1)], after));
    }
    // A run in a later group goes before single blocks in an earlier one.
    let free: &[Run] = &[(0, 1), (2, 1), (4, 1), (16_390, 3)];
    for hint in 0..4 {
        case((hint, free), &[3], (&[(16_390, 3)], 1));
    }
    let free: &[Run] = &[(0, 1), (2, 1), (16_390, 2), (32_770, 3)];
    for hint in 0..4 {
        case((hint, free), &[3], (&[(32_770, 3)], 2));
    }
    // Upwards and around.
    let free: &[Run] = &[(10, 3), (16_500, 4), (32_780, 5)];
    for (hint, block, after) in [(0, 10, 0), (1, 16_500, 1), (2, 32_780, 2), (3, 10, 0)] {
        case((hint, free), &[3], (&[(block, 3)], after));
    }
    let free: &[Run] = &[(10, 3), (16_500, 3), (32_780, 1)];
    case((2, free), &[3], (&[(10, 3)], 0));
    let free: &[Run] = &[(10, 1), (16_500, 3), (32_780, 3)];
    case((0, free), &[3], (&[(16_500, 3)], 1));
    case((3, free), &[3], (&[(16_500, 3)], 1));
    // The first group's, and not the longest; in the last group the only one.
    let free: &[Run] = &[(10, 9), (16_500, 5), (32_780, 16)];
    case((1, free), &[5], (&[(16_500, 5)], 1));
    case((1, free), &[6], (&[(32_780, 6)], 2));
    case((0, free), &[16], (&[(32_780, 16)], 2));
    // No group has one: all by the present rule, from the hint.
    let free: &[Run] = &[(10, 2), (20, 2), (16_500, 2), (32_780, 2)];
    case((0, free), &[3], (&[(10, 2), (20, 1)], 0));
    case((1, free), &[3], (&[(16_500, 2), (32_780, 1)], 2));
    case((2, free), &[3], (&[(10, 1), (32_780, 2)], 2));
    case((1, free), &[5], (&[(10, 1), (16_500, 2), (32_780, 2)], 2));
}

/// The hint goes from unit to unit, and so does the cursor of each group.
fn hints(cases: &mut Cases) {
    let name = "the hint from unit to unit";
    let mut case = |free: (u64, &[Run]), wanted: &[u64], blocks: (&[Run], u64)| {
        cases.empty(name, free, wanted, blocks);
    };
    // With the head's hint for both the second unit would have 100 and 101.
    let free: &[Run] = &[(100, 2), (16_394, 16), (16_424, 2)];
    case((0, free), &[16, 2], (&[(16_394, 16), (16_424, 2)], 1));
    case((2, free), &[16, 2], (&[(16_394, 16), (16_424, 2)], 1));
    let free: &[Run] = &[(100, 2), (16_394, 16), (16_424, 1)];
    case((0, free), &[16, 2], (&[(16_394, 16), (100, 2)], 0));
    // No run for the second: in the hint's group from behind the first one's run.
    let free: &[Run] = &[
        (100, 1),
        (102, 1),
        (16_384, 1),
        (16_394, 16),
        (16_424, 1),
        (16_426, 1),
    ];
    case(
        (0, free),
        &[16, 2],
        (&[(16_394, 16), (16_424, 1), (16_426, 1)], 1),
    );
    case(
        (0, free),
        &[16, 4],
        (
            &[
                (16_394, 16),
                (100, 1),
                (16_384, 1),
                (16_424, 1),
                (16_426, 1),
            ],
            1,
        ),
    );
    // Each group has its own cursor.
    let free: &[Run] = &[(3, 1), (10, 16), (30, 1), (16_386, 1), (16_394, 16)];
    case(
        (0, free),
        &[16, 16, 3],
        (&[(10, 16), (16_394, 16), (3, 1), (30, 1), (16_386, 1)], 1),
    );
    case(
        (0, free),
        &[16, 16, 2],
        (&[(10, 16), (16_394, 16), (30, 1), (16_386, 1)], 1),
    );
    // A hint that the present rule leaves: of the last block assigned.
    let free: &[Run] = &[(10, 12), (16_500, 8), (16_600, 2)];
    case(
        (0, free),
        &[16, 2],
        (&[(10, 12), (16_500, 4), (16_504, 2)], 1),
    );
}

/// A batch's later writes begin with the head's hint, and with nothing taken.
fn wide_batches(cases: &mut Cases) {
    let name = "the writes of a batch, in three groups";
    let mut case = |hint: u64, free: &[Run], writes: &[Run], blocks: &[Run], after: u64| {
        let volume = cases.volume(0, &[], hint, free);
        cases.case(name, &volume, batch(writes), &blocks_of(blocks), after);
    };
    let two = [(0, 16), (16, 2)];
    let free = [(100, 2), (16_394, 16), (16_424, 2)];
    case(0, &free, &two, &[(16_394, 16), (16_424, 2)], 1);
    let free = [
        (100, 1),
        (16_386, 1),
        (16_394, 16),
        (16_424, 1),
        (16_426, 1),
    ];
    case(0, &free, &two, &[(16_394, 16), (16_386, 1), (16_424, 1)], 1);
    let free = [(100, 2), (16_394, 16), (32_770, 2)];
    case(0, &free, &two, &[(16_394, 16), (32_770, 2)], 2);
    let free = [(100, 16), (16_394, 16), (16_424, 2)];
    case(
        1,
        &free,
        &[(0, 16), (16, 16), (32, 2)],
        &[(16_394, 16), (100, 16), (16_424, 2)],
        1,
    );
}

fn wide_grows(cases: &mut Cases) {
    let name = "a grow, in three groups";
    let size = 3 * BLOCK - 5;
    let free = [(100, 13), (16_394, 14), (32_780, 20)];
    for (hint, block, after) in [(0, 16_394, 1), (1, 16_394, 1), (2, 32_780, 2)] {
        let volume = cases.volume(size, &[(50, 3)], hint, &free);
        let blocks = blocks_of(&[(50, 2), (block, 14)]);
        cases.case(name, &volume, grow(7, UNIT_BYTES), &blocks, after);
    }
    let volume = cases.volume(size, &[(50, 3)], 0, &free);
    let blocks = blocks_of(&[(50, 2), (100, 13)]);
    cases.case(name, &volume, grow(7, 15 * BLOCK), &blocks, 0);
}

/// A store of its own in which only these blocks are free; file 7 has so many
/// bytes, in these blocks.
fn alone(blocks: u64, size: u64, file: &[Run], free: &[Run]) -> Arc<Store> {
    let mut cases = Cases::new(blocks, 0..0);
    let volume = cases.volume(size, file, 0, free);
    let mut store = Store::blank(blocks, 1, 8, 1);
    volume.encode(&mut store);
    Arc::new(store)
}

/// A few on stores of their own, which tell most of what can be wrong.
pub fn telling() -> Vec<Edge> {
    let mut all = Vec::new();
    for (free, wanted) in [
        (&[(3, 1), (10, 16), (30, 1), (32, 1)][..], &[16, 2][..]),
        (&[(1, 2), (4, 3), (9, 6), (17, 4), (36, 4)], &[3]),
        (&[(1, 2), (4, 3), (9, 6), (17, 4), (36, 4)], &[4]),
        (&[(1, 1), (3, 2), (36, 4)], &[4]),
        (&[(1, 1), (3, 2), (36, 4)], &[5]),
        (&[(1, 2), (5, 17), (24, 2)], &[16, 2]),
    ] {
        let store = alone(40, 0, &[], free);
        let blocks: u64 = wanted.iter().sum();
        let call = units(wanted);
        let two = batch(&[(0, 1), (1, blocks - 1)]);
        for call in [exchanged(&call).expect("a write"), call, two] {
            all.push(edge("one run where one exists", &store, call));
        }
    }
    all
}

/// Those that are recorded: on the smallest stores two blocks that adjoin behind
/// single ones, none that do, two around the store's end and around a retired block;
/// and the cursor behind a run.
pub fn recorded() -> Vec<Edge> {
    let name = "one run where one exists";
    let two = write(7, 0, 4_200);
    let mut all = Vec::new();
    for free in [
        &[(1, 1), (3, 1), (5, 2)][..],
        &[(1, 1), (4, 3)],
        &[(1, 1), (3, 1), (6, 1)],
        &[(1, 1), (6, 2)],
        &[(1, 1), (7, 1)],
    ] {
        all.push(edge(name, &alone(8, 0, &[], free), two.clone()));
    }
    let retired = with(&alone(8, 0, &[], &[(1, 1), (3, 1), (5, 2)]), |store| {
        let mut volume = Volume::decode(store);
        volume.retired[2] = true;
        volume.encode(store);
    });
    all.push(edge(name, &retired, two));
    // A tail of one block, of which nothing is kept.
    for free in [&[(2, 1), (4, 2)][..], &[(2, 1), (4, 1)]] {
        let store = alone(8, 100, &[(1, 1)], free);
        all.push(edge(name, &store, grow(7, 4_200)));
    }
    let free = [(3, 1), (10, 16), (30, 1), (32, 1)];
    all.push(edge(name, &alone(40, 0, &[], &free), units(&[16, 2])));
    all
}
