//! Octets by hand: what the form of OER is written with.

/// Writes octets.
pub struct OctetWriter {
    pub octets: Vec<u8>,
}

impl OctetWriter {
    /// Writes the low octets of the number, of which there are 1 to 8.
    #[inline(always)]
    pub fn put(&mut self, count: usize, number: u64) {
        self.octets.extend_from_slice(&number.to_be_bytes()[8 - count..]);
    }

    /// Writes these bits, at most 64, and fills the last octet with zeros.
    #[inline(always)]
    pub fn put_flags<const N: usize>(&mut self, flags: [bool; N]) {
        let number = flags.iter().fold(0, |number, flag| number << 1 | u64::from(*flag));
        let octets = const { N.div_ceil(8) };
        self.put(octets, number << (8 * octets - N));
    }

    /// Writes bits, and fills the last octet with zeros.
    pub fn put_bits(&mut self, bits: &[bool]) {
        for part in bits.chunks(8) {
            let number = part.iter().fold(0, |number, bit| number << 1 | u8::from(*bit));
            self.octets.push(number << (8 - part.len()));
        }
    }

    /// Writes a length below 65536; `None` where it is more.
    #[inline(always)]
    pub fn put_length(&mut self, length: usize) -> Option<()> {
        match length {
            0..128 => self.put(1, length as u64),
            128..256 => self.put(2, 0x8100 | length as u64),
            256..65536 => self.put(3, 0x82_0000 | length as u64),
            _ => return None,
        }
        Some(())
    }

    /// Writes a number in the fewest octets of two's complement, after their count.
    pub fn put_signed(&mut self, number: i64) {
        let count = signed_octets(number);
        self.put(1, count as u64);
        self.put(count, number as u64);
    }
}

/// Reads octets: those that are left.
pub struct OctetReader<'a> {
    pub octets: &'a [u8],
}

impl<'a> OctetReader<'a> {
    /// The number in the next N octets, at most 8.
    #[inline(always)]
    pub fn take<const N: usize>(&mut self) -> Option<u64> {
        let (front, rest) = self.octets.split_first_chunk::<N>()?;
        self.octets = rest;
        let mut eight = [0; 8];
        eight[8 - N..].copy_from_slice(front);
        Some(u64::from_be_bytes(eight))
    }

    /// The number in the next octets, 1 to 8.
    #[inline(always)]
    pub fn take_number(&mut self, count: usize) -> Option<u64> {
        match count {
            1 => self.take::<1>(),
            2 => self.take::<2>(),
            3 => self.take::<3>(),
            4 => self.take::<4>(),
            5 => self.take::<5>(),
            6 => self.take::<6>(),
            7 => self.take::<7>(),
            _ => self.take::<8>(),
        }
    }

    /// The next octets.
    #[inline(always)]
    pub fn take_octets(&mut self, count: usize) -> Option<&'a [u8]> {
        let (front, rest) = self.octets.split_at_checked(count)?;
        self.octets = rest;
        Some(front)
    }

    /// The next bits, at most 64, which zeros fill to octets.
    #[inline(always)]
    pub fn take_flags<const N: usize>(&mut self) -> Option<[bool; N]> {
        let octets = const { N.div_ceil(8) };
        let number = self.take_number(octets)?;
        let filling = 8 * octets - N;
        if number & ((1 << filling) - 1) != 0 {
            return None;
        }
        Some(std::array::from_fn(|place| number >> (filling + N - 1 - place) & 1 == 1))
    }

    /// A length below 65536, in its shortest form.
    #[inline(always)]
    pub fn take_length(&mut self) -> Option<usize> {
        match self.take::<1>()? as usize {
            short @ 0..0x80 => Some(short),
            0x80 => None,
            0x81 => Some(self.take::<1>()? as usize).filter(|length| *length >= 128),
            0x82 => Some(self.take::<2>()? as usize).filter(|length| *length >= 256),
            _ => None,
        }
    }

    /// A number in the fewest octets of two's complement, after their count.
    pub fn take_signed(&mut self) -> Option<i64> {
        let count = self.take::<1>()? as usize;
        if !(1..=8).contains(&count) {
            return None;
        }
        let unused = 64 - 8 * count as u32;
        let number = ((self.take_number(count)? << unused) as i64) >> unused;
        (signed_octets(number) == count).then_some(number)
    }

    /// So many bits, which zeros fill to octets.
    pub fn take_bits(&mut self, count: usize) -> Option<Vec<bool>> {
        let octets = self.take_octets(count.div_ceil(8))?;
        if count % 8 != 0 && octets.last()? << (count % 8) != 0 {
            return None;
        }
        Some((0..count).map(|place| octets[place / 8] >> (7 - place % 8) & 1 == 1).collect())
    }
}

/// The fewest octets of the number in two's complement.
fn signed_octets(number: i64) -> usize {
    let bits = 65 - (number ^ number >> 63).leading_zeros();
    bits.div_ceil(8) as usize
}
