//! By what a file is told from another: its length, and the checksum that `cksum FILE` prints, the CRC of POSIX.

use padcheck::MAX_LEN;

/// The length and the checksum of a file.
#[derive(Clone, Copy, Debug, PartialEq, Eq)]
pub struct Sum {
    pub length: usize,
    pub cksum: u32,
}

impl Sum {
    /// Those of a file that was read; of one that is too long not all was read, so it has none.
    pub fn of(file: &[u8]) -> Option<Self> {
        (file.len() <= MAX_LEN).then(|| Self::of_whole(file))
    }

    /// Those of a file that was read to its end, however long it is.
    pub fn of_whole(file: &[u8]) -> Self {
        let (length, cksum) = (file.len(), cksum(file));
        Self { length, cksum }
    }
}

/// The polynomial of the CRC, highest power first and without x^32.
const POLYNOMIAL: u32 = 0x04C1_1DB7;

/// What a byte alone brings to the CRC.
const TABLE: [u32; 256] = table();

const fn table() -> [u32; 256] {
    let mut table = [0; 256];
    let mut byte = 0;
    while byte < 256 {
        let mut crc = (byte as u32) << 24;
        let mut bit = 0;
        while bit < 8 {
            let carry = crc >> 31;
            crc = (crc << 1) ^ (carry * POLYNOMIAL);
            bit += 1;
        }
        table[byte] = crc;
        byte += 1;
    }
    table
}

fn with_byte(crc: u32, byte: u8) -> u32 {
    (crc << 8) ^ TABLE[((crc >> 24) as u8 ^ byte) as usize]
}

/// The CRC of these bytes and of their number, its low byte first and without zeros at its end; every bit turned over.
fn cksum(bytes: &[u8]) -> u32 {
    let mut crc = bytes.iter().fold(0, |crc, &byte| with_byte(crc, byte));
    let mut length = bytes.len();
    while length != 0 {
        crc = with_byte(crc, length as u8);
        length >>= 8;
    }
    !crc
}

#[cfg(test)]
mod tests {
    use super::*;

    #[test]
    fn a_file_that_is_too_long_has_none() {
        let mut file = vec![0; MAX_LEN];
        let length = Sum::of(&file).map(|sum| sum.length);
        assert_eq!(length, Some(MAX_LEN));
        file.push(0);
        assert_eq!(Sum::of(&file), None);
    }

    /// What `cksum` of coreutils prints.
    #[test]
    fn known_values() {
        assert_eq!(cksum(b""), 4_294_967_295);
        assert_eq!(cksum(b"123456789"), 930_766_865);
        assert_eq!(cksum(b"1000\n0000\n0100\n0000\n;\n"), 386_542_199);
        assert_eq!(cksum(&[0; 300]), 351_385_237);
    }
}
