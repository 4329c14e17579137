use crate::bits::{width, BitReader, BitWriter};
use crate::rows::{LENGTH, STRINGS};

/// A SEQUENCE of 18 OCTET STRING (SIZE (LOW..HIGH)), after a BOOLEAN where it is `FLAGGED`.
pub struct Strings<const FLAGGED: bool, const LOW: usize, const HIGH: usize> {
    pub flag: bool,
    pub strings: [Vec<u8>; STRINGS],
}

/// Its lengths have 11 bits, and but for two none ends an octet.
pub type Shifted = Strings<true, 0, 2000>;

/// Its lengths have eight bits.
pub type Aligned = Strings<false, 1000, 1255>;

impl<const FLAGGED: bool, const LOW: usize, const HIGH: usize> Strings<FLAGGED, LOW, HIGH> {
    const WIDTH: u32 = width(LOW as i64, HIGH as i64);

    pub fn sample(source: &[u8]) -> Self {
        Strings { flag: true, strings: std::array::from_fn(|place| source[place..place + LENGTH].to_vec()) }
    }

    /// The octets, or `None` where a length is out of its range.
    pub fn encode(&self) -> Option<Vec<u8>> {
        let all: usize = self.strings.iter().map(|string| 2 + string.len()).sum();
        let mut bits = BitWriter::with_capacity(8 + all);
        if FLAGGED {
            bits.put(1, u64::from(self.flag));
        }
        for string in &self.strings {
            if !(LOW..=HIGH).contains(&string.len()) {
                return None;
            }
            bits.put(Self::WIDTH, (string.len() - LOW) as u64);
            bits.put_octets(string);
        }
        Some(bits.finish())
    }

    /// The message, or `None` where the octets are no encoding of one.
    pub fn decode(octets: &[u8]) -> Option<Self> {
        let mut bits = BitReader::new(octets);
        let flag = !FLAGGED || bits.take(1)? == 1;
        let mut strings = [const { Vec::new() }; STRINGS];
        for string in &mut strings {
            let length = bits.take(Self::WIDTH)? as usize + LOW;
            if length > HIGH {
                return None;
            }
            *string = bits.take_octets(length)?;
        }
        bits.is_at_end().then_some(Strings { flag, strings })
    }
}
