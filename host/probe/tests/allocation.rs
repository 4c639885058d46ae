//! The proved `allocate_data` three ways: against the rules in the documents' words, block by block; against the published text with the same
//! change; and, as it was before runs were sought, against the published text itself. Where the published text is absent the first remains.

use oracle::parts;
use probe::{Call, Way};
use random::Rng;
use std::collections::BTreeSet;
use std::ops::Range;

/// Blocks of an allocation group, over whose end no run goes.
const GROUP: u64 = 16_384;

/// What each unit of a call gets, and the hint after it, up to the first unit that is refused.
type Units = Vec<(Vec<u64>, u64)>;

/// The rules block by block.
struct Plain {
    free: Vec<bool>,
    taken: BTreeSet<u64>,
    hint: u64,
}

impl Plain {
    fn new(used: &[u8], blocks: u64, hint: u64) -> Self {
        let free = |block: u64| used[block as usize / 8] >> (block % 8) & 1 == 0;
        Self {
            free: (0..blocks).map(free).collect(),
            taken: BTreeSet::new(),
            hint,
        }
    }

    /// The groups from the hint on, cyclic.
    fn groups(&self) -> Vec<Range<u64>> {
        let blocks = self.free.len() as u64;
        let groups = blocks.div_ceil(GROUP);
        (0..groups)
            .map(|i| (self.hint + i) % groups * GROUP)
            .map(|start| start..(start + GROUP).min(blocks))
            .collect()
    }

    /// The first blocks of the lowest run that is long enough, in the first group that has one.
    fn run(&self, want: usize) -> Option<Vec<u64>> {
        let in_group = |group: Range<u64>| {
            let mut length = 0;
            group.into_iter().find_map(|block| {
                length = if self.free[block as usize] {
                    length + 1
                } else {
                    0
                };
                (length == want).then(|| (block + 1 - want as u64..=block).collect())
            })
        };
        self.groups().into_iter().find_map(in_group)
    }

    /// Free blocks one by one: in each group from behind the highest that the call has taken there, then around.
    fn one_by_one(&self, want: usize) -> Option<Vec<u64>> {
        let searched = |group: Range<u64>| {
            let highest = self.taken.range(group.clone()).next_back();
            let next = highest.map_or(group.start, |block| block + 1);
            let next = if next == group.end { group.start } else { next };
            (next..group.end).chain(group.start..next)
        };
        let free = |block: &u64| self.free[*block as usize];
        let groups = self.groups().into_iter();
        let mut found: Vec<u64> = groups.flat_map(searched).filter(free).take(want).collect();
        found.sort_unstable();
        (found.len() == want).then_some(found)
    }

    fn unit(&mut self, way: Way, want: usize) -> Option<(Vec<u64>, u64)> {
        let run = (way == Way::Run && want > 0)
            .then(|| self.run(want))
            .flatten();
        let found = run.or_else(|| self.one_by_one(want))?;
        for &block in &found {
            self.free[block as usize] = false;
            self.taken.insert(block);
        }
        self.hint = found.last().map_or(self.hint, |last| last / GROUP);
        Some((found, self.hint))
    }
}

/// The units of one call by the proved function, which has to set in the map what it gives and nothing else.
fn proved(way: Way, used: &[u8], blocks: u64, hint: u64, wanted: &[u64]) -> Units {
    let mut call = Call::new(used, blocks, hint);
    let units: Units = wanted
        .iter()
        .map_while(|want| call.unit(way, *want as usize))
        .collect();
    if units.len() == wanted.len() {
        let mut map = used.to_vec();
        for block in units.iter().flat_map(|(blocks, _)| blocks) {
            map[*block as usize / 8] |= 1 << (block % 8);
        }
        assert!(call.map() == map, "{way:?}: the map");
    }
    units
}

/// Both ways on the units of one call, up to the first that is refused.
fn same_blocks(used: &[u8], blocks: u64, hint: u64, wanted: &[u64]) {
    for way in [Way::Run, Way::Scattered] {
        let ours = proved(way, used, blocks, hint, wanted);
        let told = || {
            let free = free_stretches(used, blocks);
            format!("{way:?}: {blocks} blocks, hint {hint}, wanted {wanted:?}, free {free:?}")
        };
        let mut plain = Plain::new(used, blocks, hint);
        let plain: Units = wanted
            .iter()
            .map_while(|want| plain.unit(way, *want as usize))
            .collect();
        assert_eq!(ours, plain, "{}", told());
        if oracle::AVAILABLE {
            let rust = match way {
                Way::Run => parts::allocate(used, blocks, hint, wanted),
                Way::Scattered => parts::allocate_as_published(used, blocks, hint, wanted),
            };
            assert_eq!(ours, rust, "the Rust, {}", told());
        }
    }
}

/// The first of them, for a message.
fn free_stretches(used: &[u8], blocks: u64) -> Vec<Range<u64>> {
    let plain = Plain::new(used, blocks, 0);
    let mut at = 0;
    let stretches = plain.free.chunk_by(|a, b| a == b).map(|same| {
        let from = at;
        at += same.len() as u64;
        (same[0], from..at)
    });
    let free = stretches.filter_map(|(free, stretch)| free.then_some(stretch));
    free.take(40).collect()
}

/// A map with every block free. The bits behind the last block are clear, too.
fn empty(blocks: u64) -> Vec<u8> {
    vec![0; 8 * blocks.div_ceil(64) as usize]
}

/// A map with every block used but those.
fn all_but(blocks: u64, free: impl IntoIterator<Item = u64>) -> Vec<u8> {
    let mut map = empty(blocks);
    for block in 0..blocks {
        map[block as usize / 8] |= 1 << (block % 8);
    }
    for block in free.into_iter().filter(|block| *block < blocks) {
        map[block as usize / 8] &= !(1 << (block % 8));
    }
    map
}

/// Single free blocks: every other one.
fn singles(from: u64, count: u64) -> impl Iterator<Item = u64> {
    (0..count).map(move |i| from + 2 * i)
}

/// The blocks that the units of a call get, by either way.
#[track_caller]
fn expect(way: Way, map: &[u8], blocks: u64, hint: u64, units: &[(&[u64], u64)]) {
    let wanted: Vec<u64> = units.iter().map(|(found, _)| found.len() as u64).collect();
    let ours = proved(way, map, blocks, hint, &wanted);
    let units: Units = units
        .iter()
        .map(|(found, hint)| (found.to_vec(), *hint))
        .collect();
    assert_eq!(ours, units);
    same_blocks(map, blocks, hint, &wanted);
}

/// Numbers worked out by hand.
#[test]
fn cases_by_hand() {
    oracle::skipped("allocate_data, cases by hand");
    let sixteen: Vec<u64> = (10..26).collect();
    let map = all_but(64, [3, 30, 32].into_iter().chain(10..26));
    // From behind the highest block taken, 25, not from the group's start.
    expect(Way::Run, &map, 64, 0, &[(&sixteen, 0), (&[30, 32], 0)]);
    // A single block is a run of one: the lowest free one of the group, 3.
    expect(Way::Run, &map, 64, 0, &[(&sixteen, 0), (&[3], 0)]);
    // A run is sought from the group's start, wherever the call has taken blocks.
    let more = all_but(64, [3, 4, 30, 32].into_iter().chain(10..26));
    expect(Way::Run, &more, 64, 0, &[(&sixteen, 0), (&[3, 4], 0)]);
    // As it was before: one by one.
    let first: Vec<u64> = [3].into_iter().chain(10..25).collect();
    expect(
        Way::Scattered,
        &map,
        64,
        0,
        &[(&first, 0), (&[25, 30], 0), (&[32], 0)],
    );

    // The hint goes from unit to unit: the second is sought in group 1 first.
    let free = [100, 101, 16_424, 16_425].into_iter().chain(16_394..16_410);
    let map = all_but(2 * GROUP, free);
    let sixteen: Vec<u64> = (16_394..16_410).collect();
    expect(
        Way::Run,
        &map,
        2 * GROUP,
        0,
        &[(&sixteen, 1), (&[16_424, 16_425], 1), (&[100, 101], 0)],
    );
    // Each alone is sought from the head's hint.
    expect(Way::Run, &map, 2 * GROUP, 0, &[(&[100, 101], 0)]);
    expect(Way::Run, &map, 2 * GROUP, 1, &[(&[16_394, 16_395], 1)]);

    // A run over a group's end is none.
    let map = all_but(2 * GROUP, [5, 7].into_iter().chain(16_382..16_386));
    expect(
        Way::Run,
        &map,
        2 * GROUP,
        0,
        &[(&[5, 7, 16_382, 16_383], 0)],
    );
    expect(
        Way::Run,
        &map,
        2 * GROUP,
        1,
        &[(&[5, 7, 16_384, 16_385], 1)],
    );
    expect(
        Way::Run,
        &map,
        2 * GROUP,
        0,
        &[(&[16_382, 16_383], 0), (&[16_384, 16_385], 1)],
    );
    expect(Way::Run, &map, 2 * GROUP, 2, &[(&[5], 0), (&[7], 0)]);

    // Just at a group's end, behind single blocks that are lower; and at the end of a shorter last group.
    let sixteen: Vec<u64> = (16_368..16_384).collect();
    let map = all_but(2 * GROUP, singles(0, 16).chain(16_368..16_384));
    expect(Way::Run, &map, 2 * GROUP, 0, &[(&sixteen, 0)]);
    expect(Way::Run, &map, 2 * GROUP, 1, &[(&sixteen, 0)]);
    let sixteen: Vec<u64> = (16_468..16_484).collect();
    let map = all_but(16_484, singles(0, 16).chain(16_468..16_484));
    expect(Way::Run, &map, 16_484, 0, &[(&sixteen, 1)]);
    expect(Way::Run, &map, 16_484, 3, &[(&sixteen, 1)]);
    // One shorter: the bits behind the last block are clear, but they are no blocks.
    let map = all_but(16_484, singles(0, 16).chain(16_469..16_484));
    let lowest: Vec<u64> = singles(0, 16).collect();
    expect(Way::Run, &map, 16_484, 0, &[(&lowest, 0)]);

    // The lowest run that is long enough, not the longest and not the one that fits best.
    let map = all_but(256, (4..7).chain(20..25).chain(64..128).chain(200..204));
    expect(Way::Run, &map, 256, 0, &[(&[20, 21, 22, 23], 0)]);
    expect(
        Way::Run,
        &map,
        256,
        0,
        &[(&[4, 5, 6], 0), (&[20, 21, 22], 0), (&[64, 65, 66], 0)],
    );

    // The store of `layout`: runs of two, and three wanted.
    let map = all_but(8, [2, 3, 6, 7]);
    expect(Way::Run, &map, 8, 0, &[(&[2, 3, 6], 0)]);
    expect(Way::Scattered, &map, 8, 0, &[(&[2, 3, 6], 0)]);

    // A unit that wants none gets none, and leaves the hint as it is.
    expect(
        Way::Run,
        &map,
        8,
        5,
        &[(&[], 5), (&[2, 3], 0), (&[], 0), (&[6, 7], 0)],
    );
    // One more than there are.
    assert_eq!(proved(Way::Run, &map, 8, 0, &[5]), []);
    assert_eq!(proved(Way::Run, &map, 8, 0, &[4, 1]).len(), 1);
    same_blocks(&map, 8, 0, &[4, 1]);
}

/// A run of every length at every place around the edges of bytes and words, behind as many lower single blocks as are wanted.
#[test]
fn runs_of_every_length_against_every_want() {
    oracle::skipped("runs of every length");
    let lowest: Vec<u64> = singles(1, 16).collect();
    for start in 111..=196 {
        for length in 1..=17 {
            let run = start..start + length;
            let map = all_but(300, lowest.iter().copied().chain(run));
            for want in 1..=16 {
                let run: Vec<u64> = (start..start + want).collect();
                let ours = proved(Way::Run, &map, 300, 0, &[want]);
                let expected = if want == 1 || length < want {
                    &lowest[..want as usize]
                } else {
                    &run[..]
                };
                let place = format!("{length} from {start}, {want} wanted");
                assert_eq!(ours, [(expected.to_vec(), 0)], "{place}");
                same_blocks(&map, 300, 0, &[want, want]);
            }
        }
    }
}

/// Free blocks on both sides of a group's end, from either group on.
#[test]
fn runs_at_the_ends_and_starts_of_groups() {
    oracle::skipped("runs at the ends and starts of groups");
    for blocks in [2 * GROUP, 2 * GROUP - 1, GROUP + 70, 3 * GROUP + 1] {
        for before in [0, 1, 2, 3, 7, 8, 9, 15, 16, 17] {
            for behind in [0, 1, 2, 3, 7, 8, 9, 15, 16, 17] {
                let edge = GROUP - before..GROUP + behind;
                let map = all_but(blocks, singles(40, 16).chain(edge));
                for want in [2, 3, 4, 8, 9, 15, 16] {
                    for hint in 0..2 {
                        same_blocks(&map, blocks, hint, &[want, want]);
                    }
                }
            }
        }
    }
}

/// Runs that end with the last block, of any number of blocks: the map goes on with clear bits to its last word's end, or for words more.
#[test]
fn runs_at_the_end_of_a_shorter_last_group() {
    oracle::skipped("runs at the end of a shorter last group");
    let ends = (1..=140).chain(GROUP - 3..GROUP + 140);
    for blocks in ends.chain([3 * GROUP + 63, 4 * GROUP - 9, 4 * GROUP]) {
        for length in [1, 2, 3, 5, 8, 13, 15, 16] {
            let last = blocks.saturating_sub(length)..blocks;
            let mut map = all_but(blocks, singles(0, 16).chain(last));
            for longer in [false, true] {
                // A map may be longer, up to that of 65,536 blocks.
                if longer {
                    map.resize((map.len() + 24).min(8_192), 0);
                }
                for want in [length - 1, length, length + 1] {
                    same_blocks(&map, blocks, blocks / GROUP, &[want.min(16), 2]);
                }
            }
        }
    }
}

#[test]
fn maps_without_a_run_that_is_long_enough() {
    oracle::skipped("maps without a run that is long enough");
    for blocks in [129, GROUP, GROUP + 77, 4 * GROUP] {
        // Every other block, even or odd ones.
        for odd in 0..2 {
            let map = all_but(blocks, (odd..blocks).step_by(2));
            for want in [1, 2, 3, 15, 16] {
                same_blocks(&map, blocks, 1, &[want, 16, want]);
            }
        }
        // One less than wanted side by side everywhere, from every place on; then with a run in one place, alone or beside the others.
        for want in 2..=16u64 {
            for phase in [0, 1, want / 2, want - 1] {
                let free = |block: &u64| !(block + phase).is_multiple_of(want);
                let map = all_but(blocks, (0..blocks).filter(free));
                same_blocks(&map, blocks, 2, &[want, want - 1, want]);
                for place in [60, blocks - want, blocks / 2 + 5] {
                    let more = (0..blocks).filter(free).chain(place..place + want);
                    same_blocks(&all_but(blocks, more), blocks, 1, &[want, want]);
                }
            }
        }
    }
}

#[test]
fn all_and_nearly_no_blocks() {
    oracle::skipped("allocate_data on empty and on nearly full maps");
    let sizes = [
        1, 2, 63, 64, 65, 127, 16_383, 16_384, 16_385, 16_447, 16_449, 32_768, 49_153, 65_535,
        65_536,
    ];
    for blocks in sizes {
        let maps = [
            all_but(blocks, []),
            all_but(blocks, [blocks - 1]),
            all_but(blocks, [0, blocks / 2, blocks - 1]),
        ];
        for hint in 0..8 {
            for want in 0..=16 {
                same_blocks(&empty(blocks), blocks, hint, &[want, 16 - want, want]);
                same_blocks(&maps[0], blocks, hint, &[want.min(1)]);
                same_blocks(&maps[1], blocks, hint, &[1, want]);
                same_blocks(&maps[2], blocks, hint, &[want.min(3), 1]);
            }
        }
    }
}

/// Blocks used at random, from none to nearly all: mostly single free ones where many are used.
#[test]
fn random_maps() {
    oracle::skipped("allocate_data on random maps");
    let mut random = Rng::new(2026);
    for round in 0..6_000 {
        let most = [64, 200, 20_000, 65_536][round % 4];
        let blocks = 1 + random.below(most);
        let mut map = empty(blocks);
        let density = random.below(257);
        for block in 0..blocks {
            if random.below(256) < density {
                map[block as usize / 8] |= 1 << (block % 8);
            }
        }
        let units = 1 + random.below(18);
        let wanted: Vec<u64> = (0..units).map(|_| random.below(17)).collect();
        same_blocks(&map, blocks, random.below(6), &wanted);
    }
}

/// Free and used stretches of random lengths, most of them about as long as what is wanted.
#[test]
fn random_runs() {
    oracle::skipped("allocate_data on random runs");
    let mut random = Rng::new(208);
    for round in 0..6_000 {
        let most = [64, 300, 20_000, 65_536][round % 4];
        let blocks = 1 + random.below(most);
        let longest = 1 + random.below(18);
        let gap = [2, 10, 400, 3_000][random.index(4)];
        let (mut free, mut at) = (Vec::new(), random.below(gap));
        while at < blocks {
            let length = 1 + random.below(longest);
            free.extend(at..at + length);
            at += length + 1 + random.below(gap);
        }
        let units = 1 + random.below(18);
        let wanted: Vec<u64> = (0..units)
            .map(|_| (longest + random.below(3)).saturating_sub(1).min(16))
            .collect();
        same_blocks(&all_but(blocks, free), blocks, random.below(6), &wanted);
    }
}
