//! The unit checksum by the processor's instruction, as the published Rust would
//! have it: one stream, eight bytes at a time. All unsafe code of the crate.

use std::arch::x86_64::{_mm_crc32_u8, _mm_crc32_u64};

/// Document 01's unit checksum.
pub fn by_instruction(uuid: &[u8; 16], object: u64, unit: u64, valid: &[u8]) -> u32 {
    assert!(std::arch::is_x86_feature_detected!("sse4.2"));
    let parts: [&[u8]; 5] = [
        uuid,
        &object.to_be_bytes(),
        &unit.to_be_bytes(),
        &(valid.len() as u32).to_be_bytes(),
        valid,
    ];
    // SAFETY: the processor has the instruction.
    !parts
        .into_iter()
        .fold(u32::MAX, |register, part| unsafe { feed(register, part) })
}

#[target_feature(enable = "sse4.2")]
fn feed(register: u32, bytes: &[u8]) -> u32 {
    let (eights, rest) = bytes.as_chunks::<8>();
    let mut wide = u64::from(register);
    for eight in eights {
        wide = _mm_crc32_u64(wide, u64::from_le_bytes(*eight));
    }
    rest.iter()
        .fold(wide as u32, |register, &byte| _mm_crc32_u8(register, byte))
}

#[cfg(test)]
mod tests {
    #[test]
    fn the_instruction_gives_document_01s_checksum() {
        let bytes: Vec<u8> = (0..5000u32).map(|n| (n * 37 + 11) as u8).collect();
        for length in [0, 1, 7, 8, 9, 4096, 5000] {
            assert_eq!(
                super::by_instruction(&[3; 16], 7, 9, &bytes[..length]),
                model::crc32c::unit_checksum(&[3; 16], 7, 9, &bytes[..length])
            );
        }
    }
}
