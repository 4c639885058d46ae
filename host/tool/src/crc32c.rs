//! CRC-32C of RFC 3720: the journal's seal, and document 01's unit checksum for
//! what `check` says of a damaged unit.

/// The Castagnoli polynomial, least significant bit first.
const POLYNOMIAL: u32 = 0x82f6_3b78;

static TABLE: [u32; 256] = {
    let mut table = [0; 256];
    let mut byte = 0;
    while byte < 256 {
        let mut register = byte as u32;
        let mut bit = 0;
        while bit < 8 {
            register = (register >> 1) ^ (POLYNOMIAL & (register & 1).wrapping_neg());
            bit += 1;
        }
        table[byte] = register;
        byte += 1;
    }
    table
};

/// The checksum of the pieces, one after the other.
pub fn crc32c(pieces: &[&[u8]]) -> u32 {
    let bytes = pieces.iter().copied().flatten();
    !bytes.fold(u32::MAX, |register, &byte| {
        (register >> 8) ^ TABLE[usize::from(register as u8 ^ byte)]
    })
}

/// Over uuid, object, unit, valid length and the valid bytes.
pub fn unit_checksum(uuid: &[u8; 16], object: u64, unit: u64, valid: &[u8]) -> u32 {
    let length = valid.len() as u32;
    crc32c(&[
        uuid,
        &object.to_be_bytes(),
        &unit.to_be_bytes(),
        &length.to_be_bytes(),
        valid,
    ])
}

#[cfg(test)]
mod tests {
    use super::crc32c;

    #[test]
    fn the_check_value() {
        assert_eq!(crc32c(&[b"1234", b"56789"]), 0xe306_9283);
        assert_eq!(crc32c(&[&[0; 32]]), 0x8a91_36aa);
    }
}
