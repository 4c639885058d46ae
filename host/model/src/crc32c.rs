//! CRC-32C of RFC 3720 and document 01's unit checksum.

/// The Castagnoli polynomial, least significant bit first.
const POLYNOMIAL: u32 = 0x82f6_3b78;

/// One byte through the register, bit by bit: the definition that the tables
/// below only speed up.
pub const fn bit_serial(mut register: u32, byte: u8) -> u32 {
    register ^= byte as u32;
    let mut bit = 0;
    while bit < 8 {
        register = if register & 1 == 1 {
            (register >> 1) ^ POLYNOMIAL
        } else {
            register >> 1
        };
        bit += 1;
    }
    register
}

/// `TABLES[k][b]`: the register after byte `b` and `k` zero bytes.
static TABLES: [[u32; 256]; 8] = {
    let mut tables = [[0; 256]; 8];
    let mut byte = 0;
    while byte < 256 {
        tables[0][byte] = bit_serial(0, byte as u8);
        let mut k = 1;
        while k < 8 {
            tables[k][byte] = bit_serial(tables[k - 1][byte], 0);
            k += 1;
        }
        byte += 1;
    }
    tables
};

/// A running CRC-32C.
pub struct Crc32c(u32);

impl Default for Crc32c {
    fn default() -> Self {
        Self(u32::MAX)
    }
}

impl Crc32c {
    pub fn update(&mut self, bytes: &[u8]) {
        let (eights, rest) = bytes.as_chunks::<8>();
        for eight in eights {
            let word = u64::from_le_bytes(*eight) ^ u64::from(self.0);
            self.0 = (0..8).fold(0, |register, at| {
                register ^ TABLES[7 - at][(word >> (8 * at)) as usize & 255]
            });
        }
        for &byte in rest {
            self.0 = (self.0 >> 8) ^ TABLES[0][(self.0 as u8 ^ byte) as usize];
        }
    }

    pub fn finish(self) -> u32 {
        !self.0
    }
}

pub fn crc32c(bytes: &[u8]) -> u32 {
    let mut crc = Crc32c::default();
    crc.update(bytes);
    crc.finish()
}

/// "CRC-32C of RFC 3720 over uuid, object (8 bytes big-endian), unit (8
/// big-endian), valid length (4 big-endian) and the valid bytes."
pub fn unit_checksum(uuid: &[u8; 16], object: u64, unit: u64, valid: &[u8]) -> u32 {
    let mut crc = Crc32c::default();
    crc.update(uuid);
    crc.update(&object.to_be_bytes());
    crc.update(&unit.to_be_bytes());
    crc.update(&(valid.len() as u32).to_be_bytes());
    crc.update(valid);
    crc.finish()
}

#[cfg(test)]
mod tests {
    use super::*;

    #[test]
    fn vectors_of_rfc_3720() {
        let ascending: Vec<u8> = (0..32).collect();
        let descending: Vec<u8> = (0..32).rev().collect();
        assert_eq!(crc32c(&[0; 32]), 0x8a91_36aa);
        assert_eq!(crc32c(&[0xff; 32]), 0x62a8_ab43);
        assert_eq!(crc32c(&ascending), 0x46dd_794e);
        assert_eq!(crc32c(&descending), 0x113f_db5c);
        assert_eq!(crc32c(b"123456789"), 0xe306_9283);
        let read_command: [u8; 48] = [
            0x01, 0xc0, 0x00, 0x00, 0x00, 0x00, 0x00, 0x00, 0x00, 0x00, 0x00, 0x00, 0x00, 0x00,
            0x00, 0x00, 0x14, 0x00, 0x00, 0x00, 0x00, 0x00, 0x04, 0x00, 0x00, 0x00, 0x00, 0x14,
            0x00, 0x00, 0x00, 0x18, 0x28, 0x00, 0x00, 0x00, 0x00, 0x00, 0x00, 0x00, 0x02, 0x00,
            0x00, 0x00, 0x00, 0x00, 0x00, 0x00,
        ];
        assert_eq!(crc32c(&read_command), 0xd996_3a56);
    }

    #[test]
    fn tables_agree_with_the_bit_serial_register_at_every_length_and_cut() {
        let bytes: Vec<u8> = (0..100u32).map(|n| (n * 37 + 11) as u8).collect();
        for length in 0..bytes.len() {
            let serial = !bytes[..length]
                .iter()
                .fold(u32::MAX, |r, &b| bit_serial(r, b));
            for cut in 0..=length {
                let mut crc = Crc32c::default();
                crc.update(&bytes[..cut]);
                crc.update(&bytes[cut..length]);
                assert_eq!(crc.finish(), serial);
            }
        }
    }

    #[test]
    fn a_unit_checksum_is_the_crc_of_its_fields_in_order() {
        let uuid = *b"0123456789abcdef";
        let mut joined = uuid.to_vec();
        joined.extend_from_slice(&[0, 0, 0, 0, 0, 0, 0, 7]);
        joined.extend_from_slice(&[0, 0, 0, 0, 0, 0, 1, 2]);
        joined.extend_from_slice(&[0, 0, 0, 3]);
        joined.extend_from_slice(&[9, 8, 7]);
        assert_eq!(unit_checksum(&uuid, 7, 258, &[9, 8, 7]), crc32c(&joined));
    }
}
