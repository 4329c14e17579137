use crate::bits::{BitReader, BitWriter};

/// SEQUENCE { id INTEGER (0..7), ok BOOLEAN DEFAULT TRUE, flag BOOLEAN OPTIONAL }
pub struct Small {
    pub id: u8,
    pub ok: bool,
    pub flag: Option<bool>,
}

impl Small {
    pub fn sample() -> Self {
        Small { id: 5, ok: true, flag: Some(true) }
    }

    /// The octets, or `None` where the number is out of its range.
    pub fn encode(&self) -> Option<Vec<u8>> {
        if self.id > 7 {
            return None;
        }
        let mut bits = BitWriter::with_capacity(1);
        bits.put(1, u64::from(!self.ok));
        bits.put(1, u64::from(self.flag.is_some()));
        bits.put(3, u64::from(self.id));
        if !self.ok {
            bits.put(1, 0);
        }
        if let Some(flag) = self.flag {
            bits.put(1, u64::from(flag));
        }
        Some(bits.finish())
    }

    /// The message, or `None` where the octets are no encoding of one.
    pub fn decode(octets: &[u8]) -> Option<Self> {
        let mut bits = BitReader::new(octets);
        let has_ok = bits.take(1)? == 1;
        let has_flag = bits.take(1)? == 1;
        let id = bits.take(3)? as u8;
        if has_ok && bits.take(1)? == 1 {
            return None;
        }
        let flag = match has_flag {
            true => Some(bits.take(1)? == 1),
            false => None,
        };
        bits.is_at_end().then_some(Small { id, ok: !has_ok, flag })
    }
}
