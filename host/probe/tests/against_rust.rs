//! The proved group functions against their published text, and the checksums against a bit by bit one.

use oracle::parts;
use probe::GroupRecord;
use random::Rng;

/// CRC-32C bit by bit.
fn crc32c(bytes: &[u8]) -> u32 {
    !bytes.iter().fold(!0u32, |crc, byte| {
        (0..8).fold(crc ^ u32::from(*byte), |crc, _| {
            (crc >> 1) ^ if crc & 1 == 1 { 0x82f6_3b78 } else { 0 }
        })
    })
}

#[test]
fn crc32c_around_its_lengths() {
    assert_eq!(probe::crc32c(b"123456789"), 0xe306_9283);
    let mut random = Rng::new(528);
    let bytes: Vec<u8> = (0..70_001).map(|_| random.next_u64() as u8).collect();
    // Where the tables give way to the window, where the window is full, and about whole rooms of it.
    let edges = [0, 16, 528, 1024, 1280, 4096, 4624, 8192, 65_536, 70_000];
    for len in edges
        .into_iter()
        .flat_map(|n: usize| n.saturating_sub(2)..n + 2)
    {
        for from in [0, 1, 7]
            .into_iter()
            .filter(|from| from + len <= bytes.len())
        {
            let part = &bytes[from..from + len];
            assert_eq!(probe::crc32c(part), crc32c(part), "{len} bytes from {from}");
        }
    }
}

#[test]
fn unit_checksum_in_pieces() {
    let mut random = Rng::new(4624);
    let uuid = [3u8; 16];
    for len in [0, 1, 1023, 1024, 1025, 4096, 9_000, 65_536] {
        let bytes: Vec<u8> = (0..len).map(|_| random.next_u64() as u8).collect();
        let mut message = uuid.to_vec();
        message.extend(5u64.to_be_bytes());
        message.extend(2u64.to_be_bytes());
        message.extend((len as u32).to_be_bytes());
        message.extend(&bytes);
        for piece in [1, 15, 527, 528, 1000, 4095, 4096, 4097, 70_000] {
            let ours = probe::unit_checksum(&uuid, 5, 2, &bytes, piece);
            assert_eq!(ours, crc32c(&message), "{len} bytes by {piece}");
        }
    }
}

/// A call's stack is to stay small: 256 KiB are enough for the window and the tables.
#[test]
fn unit_checksum_on_a_small_stack() {
    let run = || {
        let bytes = vec![1u8; 65_536];
        probe::unit_checksum(&[0; 16], 1, 1, &bytes, 4096)
    };
    let small = std::thread::Builder::new().stack_size(256 << 10);
    assert_eq!(small.spawn(run).unwrap().join().unwrap(), run());
}

#[test]
fn group_functions_on_random_groups() {
    if oracle::skipped("the group functions") {
        return;
    }
    let mut random = Rng::new(7);
    for _ in 0..300 {
        let mut ours: GroupRecord = [0; 1073];
        ours[8] = 4;
        let mut rust: parts::GroupBytes = [0; 1056];
        for _ in 0..random.below(40) {
            let slot = random.below(256) as usize;
            let crc = (random.below(4) != 0).then(|| random.next_u64() as u32);
            parts::set_checksum_slot(&mut rust, slot, crc);
            probe::set_checksum_slot(&mut ours, slot, crc);
            assert_eq!(ours[17..], rust);
            assert_eq!(probe::compact_group(&ours), parts::compact_length(&rust));
        }
        for slot in 0..256 {
            assert_eq!(
                probe::checksum_slot(&ours, slot),
                parts::checksum_slot(&rust, slot)
            );
        }
    }
}
