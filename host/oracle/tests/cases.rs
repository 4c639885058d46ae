//! The cases of document 01 that the Rust can answer, asserted against it.
//! Without the published source there is nothing to ask, and one line says so.

#[cfg(not(carryfs))]
#[test]
fn skipped() {
    assert!(oracle::skipped("the cases of document 01"));
}

#[cfg(carryfs)]
mod cases {
    use model::{Call, Store, Time, Volume};
    use oracle::{Error, Outcome, compact_group, parts, private};

    const TIME: Time = Time::new(1, 2);
    const ENTERED: Time = Time::new(3, 4);

    /// The text that the recorded answers were made with: 1,045 lines (one
    /// less by its line feeds), and its own CRC-32C.
    #[test]
    fn file_rs_is_the_published_text() {
        let text = std::fs::read(env!("CARRYFS_FILE")).expect("the published file");
        assert_eq!(text.iter().filter(|byte| **byte == b'\n').count(), 1_044);
        assert_eq!(model::crc32c::crc32c(&text), 0xf5f5_8895);
    }

    fn compact_length(slots: &[usize]) -> usize {
        let mut group = [0; 1_056];
        for slot in slots {
            group[slot / 8] |= 1 << (slot % 8);
        }
        compact_group(&group).len()
    }

    #[test]
    fn p1_to_p4_compact_lengths() {
        assert_eq!(compact_length(&[]), 32);
        assert_eq!(compact_length(&[0]), 36);
        assert_eq!(compact_length(&[0, 9]), 72);
        assert_eq!(compact_length(&[255]), 1_056);
    }

    #[test]
    fn p5_to_p7_joins() {
        assert!(private::joins([0, 10, 4], [4, 14, 2]));
        assert!(!private::joins([0, 10, 4], [4, 15, 2]));
        assert!(!private::joins(
            [0, 0, 4_294_967_295],
            [4_294_967_295, 4_294_967_295, 1]
        ));
    }

    #[test]
    fn p8_and_p9_kept_blocks() {
        assert_eq!(private::kept(&[10, 20, 30, 40]), [true; 4]);
        assert_eq!(private::kept(&[10, 20, 30, 40, 50]), [false; 5]);
    }

    #[test]
    fn p10_and_p11_units() {
        assert_eq!(private::units(70_000, 200_000, &[1]), [1, 3]);
        assert_eq!(private::units(65_536, 200_000, &[1]), [3]);
    }

    /// A fresh store with one entered file, by the model's calls.
    fn store_with(object: u64, blocks: u64, reserved: u64) -> Store {
        let mut store = Store::blank(blocks, 2, 40, 4);
        let fresh = Call::Fresh {
            uuid: vec![9; 16],
            reserved,
        };
        let enter = Call::Enter {
            object,
            time: ENTERED,
        };
        assert_eq!(model::run(&mut store, &fresh).number, 0);
        assert_eq!(model::run(&mut store, &enter).number, 0);
        store
    }

    fn write(store: &mut Store, object: u64, offset: u64, bytes: &[u8]) -> Outcome {
        let call = Call::Write {
            object,
            offset,
            bytes: bytes.to_vec(),
            time: TIME,
        };
        oracle::run(store, &call).outcome
    }

    fn write_archive(store: &mut Store, object: u64, offset: u64, bytes: &[u8]) -> Outcome {
        let call = Call::WriteArchive {
            object,
            offset,
            bytes: bytes.to_vec(),
            time: TIME,
        };
        oracle::run(store, &call).outcome
    }

    fn grow(store: &mut Store, object: u64, size: u64) -> Outcome {
        let call = Call::Grow {
            object,
            size,
            time: TIME,
        };
        oracle::run(store, &call).outcome
    }

    fn extents(store: &Store) -> Vec<[u64; 4]> {
        Volume::decode(store)
            .extents
            .iter()
            .map(|e| [e.object, e.logical, e.physical, e.count])
            .collect()
    }

    #[test]
    fn the_layout_store() {
        let mut store = store_with(7, 8, 1);
        assert_eq!(
            write(&mut store, 7, 0, &[5; 9_000]),
            Outcome::Accepted(9_000)
        );
        assert_eq!(write(&mut store, 7, 5_000, &[6; 10]), Outcome::Accepted(10));
        let before = store.clone();
        assert_eq!(
            grow(&mut store, 7, 20_000),
            Outcome::Refused(Error::NoSpace)
        );
        assert_eq!(store, before);
        assert_eq!(model::run(&mut store, &Call::Settle).count, 2);
        assert_eq!(grow(&mut store, 7, 20_000), Outcome::Accepted(0));
        assert_eq!(
            extents(&store),
            [[7, 0, 1, 1], [7, 1, 4, 1], [7, 2, 2, 2], [7, 4, 6, 1]]
        );
    }

    /// P5 and P6 by what a write leaves: four kept blocks, then two new ones that
    /// adjoin them on the device, or not.
    #[test]
    fn p5_and_p6_by_effect() {
        for (leaked, expected) in [
            (None, vec![[7, 0, 10, 6]]),
            (Some(14), vec![[7, 0, 10, 4], [7, 4, 15, 2]]),
        ] {
            let mut store = store_with(7, 64, 10);
            write(&mut store, 7, 0, &[5; 4 * 4_096]);
            let mut volume = Volume::decode(&store);
            if let Some(block) = leaked {
                volume.used[block] = true;
                volume.encode(&mut store);
            }
            assert_eq!(
                write(&mut store, 7, 4 * 4_096, &[6; 8_192]),
                Outcome::Accepted(8_192)
            );
            assert_eq!(extents(&store), expected);
        }
    }

    /// A file 7 of one whole unit in blocks 1 to 16, or with a block left out before
    /// each of these places; then so many blocks are free, all behind it.
    fn unit_of_16(seams: &[u64], free: u64) -> Store {
        let seam = |place: u64| seams.contains(&place);
        let blocks = 17 + seams.len() as u64;
        let mut store = store_with(7, blocks + free, 1);
        let mut volume = Volume::decode(&store);
        // The blocks left out are used while the unit is laid down, and stay so;
        // those behind it only while it is, since it would find a run there.
        volume.used[blocks as usize..].fill(true);
        let mut next = 0;
        for place in 0..16 {
            next += 1;
            if seam(place) {
                volume.used[next] = true;
                next += 1;
            }
        }
        volume.encode(&mut store);
        let written = write(&mut store, 7, 0, &[5; 65_536]);
        assert_eq!(written, Outcome::Accepted(65_536));
        assert_eq!(extents(&store).len(), 1 + seams.len());
        let mut volume = Volume::decode(&store);
        volume.used[blocks as usize..].fill(false);
        volume.encode(&mut store);
        store
    }

    fn retired(store: &Store) -> usize {
        let retired = Volume::decode(store).retired;
        retired.iter().filter(|retired| **retired).count()
    }

    /// How many blocks an archive write of these blocks retires, and a write.
    fn retire(store: &Store, blocks: std::ops::Range<usize>) -> (usize, usize) {
        let bytes = vec![6; blocks.len() * 4_096];
        let offset = blocks.start as u64 * 4_096;
        let accepted = Outcome::Accepted(bytes.len() as u64);
        let (mut by_archive, mut by_write) = (store.clone(), store.clone());
        let told = write_archive(&mut by_archive, 7, offset, &bytes);
        assert_eq!(told, accepted);
        assert_eq!(write(&mut by_write, 7, offset, &bytes), accepted);
        (retired(&by_archive), retired(&by_write))
    }

    /// W-207: "The oracle for the archive call is file.rs with `MAX_UNIT_RUNS` set
    /// to 2." Were the limit still four, it would retire as many as a write.
    #[test]
    fn an_archive_write_keeps_at_two_runs() {
        let piece = unit_of_16(&[], 20);
        // Kept, new, kept: three runs.
        assert_eq!(retire(&piece, 5..6), (16, 1));
        assert_eq!(retire(&piece, 1..15), (16, 14));
        // At the edge: two.
        assert_eq!(retire(&piece, 0..1), (1, 1));
        assert_eq!(retire(&piece, 15..16), (1, 1));
        assert_eq!(retire(&piece, 0..9), (9, 9));
        assert_eq!(retire(&piece, 0..16), (16, 16));
    }

    #[test]
    fn an_archive_write_puts_a_unit_in_one_piece() {
        let piece = unit_of_16(&[], 20);
        let (mut by_archive, mut by_write) = (piece.clone(), piece);
        write_archive(&mut by_archive, 7, 20_480, &[6; 4_096]);
        assert_eq!(extents(&by_archive), [[7, 0, 17, 16]]);
        write(&mut by_write, 7, 20_480, &[6; 4_096]);
        let three = [[7, 0, 1, 5], [7, 5, 17, 1], [7, 6, 7, 10]];
        assert_eq!(extents(&by_write), three);
    }

    /// A seam on the device: at the edge there are three runs, and two only where
    /// one side of the seam is overwritten whole.
    #[test]
    fn an_archive_write_counts_a_seam() {
        let two = unit_of_16(&[8], 20);
        assert_eq!(retire(&two, 0..1), (16, 1));
        assert_eq!(retire(&two, 15..16), (16, 1));
        assert_eq!(retire(&two, 0..8), (8, 8));
        assert_eq!(retire(&two, 8..16), (8, 8));
        let three = unit_of_16(&[5, 11], 20);
        assert_eq!(retire(&three, 0..1), (16, 1));
        assert_eq!(retire(&three, 0..11), (11, 11));
        // In the middle of three pieces: five runs, and neither keeps.
        assert_eq!(retire(&three, 7..8), (16, 16));
    }

    /// A write and then another, with a gap between them: five runs.
    #[test]
    fn two_blocks_apart_are_five_runs() {
        let mut store = unit_of_16(&[], 40);
        assert_eq!(
            write(&mut store, 7, 3 * 4_096, &[6; 4_096]),
            Outcome::Accepted(4_096)
        );
        assert_eq!(retire(&store, 9..10), (1 + 16, 1 + 16));
    }

    #[test]
    fn an_archive_write_finds_too_few_blocks() {
        let mut store = unit_of_16(&[], 15);
        let before = store.clone();
        assert_eq!(
            write_archive(&mut store, 7, 20_480, &[6; 4_096]),
            Outcome::Refused(Error::NoSpace)
        );
        assert_eq!(store, before);
        assert_eq!(
            write_archive(&mut store, 7, 0, &[6; 4_096]),
            Outcome::Accepted(4_096)
        );
        let mut store = before;
        assert_eq!(
            write(&mut store, 7, 20_480, &[6; 4_096]),
            Outcome::Accepted(4_096)
        );
    }

    /// Grow stays with the published limit.
    #[test]
    fn a_grow_keeps_at_four_runs() {
        let mut store = store_with(7, 40, 1);
        write(&mut store, 7, 0, &[5; 4 * 4_096 - 10]);
        // The last block is not whole, and new as well: four runs.
        write(&mut store, 7, 4_096, &[6; 4_096]);
        assert_eq!(
            extents(&store),
            [[7, 0, 1, 1], [7, 1, 5, 1], [7, 2, 3, 1], [7, 3, 6, 1]]
        );
        assert_eq!(retired(&store), 2);
        // Three kept, of which no two adjoin, and what is new behind them: four.
        let mut by_archive = store.clone();
        assert_eq!(grow(&mut store, 7, 65_536), Outcome::Accepted(0));
        assert_eq!(retired(&store), 2 + 1);
        let told = write_archive(&mut by_archive, 7, 65_536, &[1]);
        assert_eq!(told, Outcome::Accepted(1));
        assert_eq!(retired(&by_archive), 2 + 4);
    }

    /// A used map of so many blocks, of which only these are free.
    fn only_free(blocks: u64, free: &[u64]) -> Vec<u8> {
        let mut used = vec![0; model::store::map_bytes(blocks)];
        for block in (0..blocks).filter(|block| !free.contains(block)) {
            used[block as usize / 8] |= 1 << (block % 8);
        }
        used
    }

    /// The blocks of each unit, with one run sought first and as published.
    fn both(used: &[u8], blocks: u64, hint: u64, wanted: &[u64]) -> [Vec<Vec<u64>>; 2] {
        let blocks_of = |units: Vec<(Vec<u64>, u64)>| units.into_iter().map(|unit| unit.0);
        [
            blocks_of(parts::allocate(used, blocks, hint, wanted)).collect(),
            blocks_of(parts::allocate_as_published(used, blocks, hint, wanted)).collect(),
        ]
    }

    /// W-208: what is put before the published text.
    #[test]
    fn one_run_is_sought_first() {
        let free: Vec<u64> = [3, 30, 32].into_iter().chain(10..26).collect();
        let [one_run, published] = both(&only_free(40, &free), 40, 0, &[16, 2]);
        let run: Vec<u64> = (10..26).collect();
        assert_eq!(one_run, [run, vec![30, 32]]);
        let lowest: Vec<u64> = [3].into_iter().chain(10..25).collect();
        assert_eq!(published, [lowest, vec![25, 30]]);

        let free: Vec<u64> = [100, 101, 16_424, 16_425]
            .into_iter()
            .chain(16_394..16_410)
            .collect();
        let [one_run, _] = both(&only_free(16_430, &free), 16_430, 0, &[16, 2]);
        let run: Vec<u64> = (16_394..16_410).collect();
        assert_eq!(one_run, [run, vec![16_424, 16_425]]);

        // Over a group's end there is none, and the published text answers.
        let free = [5, 7, 16_382, 16_383, 16_384, 16_385];
        let [one_run, published] = both(&only_free(16_430, &free), 16_430, 0, &[4]);
        assert_eq!(one_run, [[5, 7, 16_382, 16_383]]);
        assert_eq!(one_run, published);
    }

    /// Where no two free blocks adjoin there is no run but of one block, which is
    /// the lowest of its group: a unit alone has the same blocks by both.
    #[test]
    fn without_a_run_it_is_the_published_text() {
        let free: Vec<u64> = (1..200).step_by(2).chain([16_385, 16_390]).collect();
        let used = only_free(16_400, &free);
        for hint in 0..4 {
            for wanted in 0..=103 {
                let [one_run, published] = both(&used, 16_400, hint, &[wanted]);
                assert_eq!(one_run, published, "{wanted} from {hint}");
                assert_eq!(one_run.is_empty(), wanted > 102);
            }
            // And so have units that each want more than one.
            let [one_run, published] = both(&used, 16_400, hint, &[16, 16, 2, 16, 5]);
            assert_eq!(one_run, published, "from {hint}");
        }
    }

    /// No block is wanted: none is taken, also where none is free.
    #[test]
    fn no_block_wanted() {
        for free in [&[][..], &[3, 4]] {
            let [one_run, published] = both(&only_free(8, free), 8, 0, &[0, 0]);
            assert_eq!(one_run, [[0; 0], []]);
            assert_eq!(one_run, published);
        }
    }

    #[test]
    fn offset_2_63_minus_2_takes_one_byte_and_not_two() {
        let mut store = store_with(7, 40, 0);
        let offset = 9_223_372_036_854_775_806;
        assert_eq!(
            write(&mut store, 7, offset, &[1, 2]),
            Outcome::Refused(Error::LimitExceeded)
        );
        assert_eq!(write(&mut store, 7, offset, &[1]), Outcome::Accepted(1));
        assert_eq!(Volume::decode(&store).cards[0].size, model::MAX_SIZE);
    }

    /// "Clip before refusal 5".
    #[test]
    fn a_write_is_clipped_before_its_end_is_tried() {
        let mut store = store_with(7, 300, 0);
        let offset = model::MAX_SIZE - 1_048_576;
        assert_eq!(
            write(&mut store, 7, offset, &vec![1; 1_048_577]),
            Outcome::Accepted(1_048_576)
        );
    }

    /// W-205: "write and grow set only the first" time.
    #[test]
    fn the_creation_time_stays() {
        let mut store = store_with(7, 8, 1);
        let times = |store: &Store| {
            let card = Volume::decode(store).cards[0];
            (card.changed, card.created)
        };
        assert_eq!(times(&store), (ENTERED, ENTERED));
        let mut grown = store.clone();
        assert_eq!(write(&mut store, 7, 0, &[5; 10]), Outcome::Accepted(10));
        assert_eq!(times(&store), (TIME, ENTERED));
        assert_eq!(grow(&mut grown, 7, 10), Outcome::Accepted(0));
        assert_eq!(times(&grown), (TIME, ENTERED));
    }

    #[test]
    fn the_checksum_is_the_documents() {
        let mut store = store_with(7, 8, 1);
        write(&mut store, 7, 65_536, b"abc");
        let expected = model::crc32c::unit_checksum(&[9; 16], 7, 1, b"abc");
        assert_eq!(Volume::decode(&store).slot(7, 1), Some(expected));
    }
}
