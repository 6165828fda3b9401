//! Reads the stored sample's bytes by its layout alone, which README.md beside this file describes. Several tests share it.

pub struct Reader<'a>(pub &'a [u8]);

impl<'a> Reader<'a> {
    pub fn bytes(&mut self, count: usize) -> &'a [u8] {
        let (head, rest) = self.0.split_at(count);
        self.0 = rest;
        head
    }

    /// A number of so many bytes, the lowest first.
    pub fn number(&mut self, bytes: usize) -> u64 {
        let digits = self.bytes(bytes).iter().rev();
        digits.fold(0, |number, &byte| number << 8 | u64::from(byte))
    }

    pub fn length(&mut self) -> usize {
        self.number(4) as usize
    }
}
