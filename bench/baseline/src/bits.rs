//! Bits by hand, words of 64 at once: what the forms by hand are written with.

/// Writes bits, the highest first.
pub struct BitWriter {
    octets: Vec<u8>,
    // the low `count` bits wait, fewer than 64
    pending: u128,
    count: u32,
}

impl BitWriter {
    pub fn with_capacity(octets: usize) -> Self {
        BitWriter { octets: Vec::with_capacity(octets), pending: 0, count: 0 }
    }

    #[inline(always)]
    pub fn put(&mut self, width: u32, number: u64) {
        self.pending = self.pending << width | u128::from(number);
        self.count += width;
        if self.count >= 64 {
            self.count -= 64;
            let eight = (self.pending >> self.count) as u64;
            self.octets.extend_from_slice(&eight.to_be_bytes());
        }
    }

    /// Adds octets.
    pub fn put_octets(&mut self, octets: &[u8]) {
        while self.count >= 8 {
            self.count -= 8;
            self.octets.push((self.pending >> self.count) as u8);
        }
        if self.count == 0 {
            self.octets.extend_from_slice(octets);
            return;
        }
        let start = self.octets.len();
        self.octets.resize(start + octets.len(), 0);
        let high = self.pending as u64;
        let low = move_after(high, self.count, octets, &mut self.octets[start..]);
        self.pending = u128::from(low);
    }

    /// Writes these bits.
    #[inline(always)]
    pub fn put_flags<const N: usize>(&mut self, flags: [bool; N]) {
        let number = flags.iter().fold(0, |number, flag| number << 1 | u64::from(*flag));
        self.put(N as u32, number);
    }

    /// Writes a number of LOW..HIGH; `None` where it is outside.
    #[inline(always)]
    pub fn put_ranged<const LOW: i64, const HIGH: i64>(&mut self, number: impl Into<i64>) -> Option<()> {
        let number = number.into();
        if !(LOW..=HIGH).contains(&number) {
            return None;
        }
        self.put(const { width(LOW, HIGH) }, (number - LOW) as u64);
        Some(())
    }

    /// Writes an INTEGER (LOW..HIGH, ...).
    #[inline]
    pub fn put_marked<const LOW: i64, const HIGH: i64>(&mut self, number: i64) {
        if (LOW..=HIGH).contains(&number) {
            self.put(const { 1 + width(LOW, HIGH) }, (number - LOW) as u64);
            return;
        }
        let width = 8 * signed_octets(number);
        self.put(9, u64::from(1 << 8 | width / 8));
        self.put(width, number as u64 & u64::MAX >> (64 - width));
    }

    /// Writes the general length of what has fewer than 16384 items; `None` where there are more.
    pub fn put_length(&mut self, length: usize) -> Option<()> {
        match length {
            0..128 => self.put(8, length as u64),
            128..16384 => self.put(16, 1 << 15 | length as u64),
            _ => return None,
        }
        Some(())
    }

    /// Writes that many single bits.
    pub fn put_bits(&mut self, bits: &[bool]) {
        for part in bits.chunks(32) {
            let number = part.iter().fold(0, |number, bit| number << 1 | u64::from(*bit));
            self.put(part.len() as u32, number);
        }
    }

    /// Writes a BIT STRING (SIZE (ROOT, ...)) of fewer than 16384 bits; `None` where there are more.
    pub fn put_bit_string<const ROOT: usize>(&mut self, bits: &[bool]) -> Option<()> {
        self.put(1, u64::from(bits.len() != ROOT));
        if bits.len() != ROOT {
            self.put_length(bits.len())?;
        }
        self.put_bits(bits);
        Some(())
    }

    /// Writes characters of seven bits; `None` where one has more.
    pub fn put_characters(&mut self, text: &[u8]) -> Option<()> {
        for character in text {
            self.put_ranged::<0, 127>(*character)?;
        }
        Some(())
    }

    /// Writes an open field of fewer than 128 octets.
    pub fn put_open(&mut self, content: BitWriter) {
        let octets = content.finish();
        self.put(8, octets.len() as u64);
        self.put_octets(&octets);
    }

    pub fn finish(mut self) -> Vec<u8> {
        let eight = (self.pending << (64 - self.count)) as u64;
        let left = self.count.div_ceil(8) as usize;
        self.octets.extend_from_slice(&eight.to_be_bytes()[..left]);
        self.octets
    }
}

/// Fills `into` with the low `left` bits of `high`, 1 to 7, and `octets` after them, a word at once. What
/// is left over stands in the low `left` bits of the result.
fn move_after(mut high: u64, left: u32, octets: &[u8], into: &mut [u8]) -> u64 {
    let (eights, rest) = octets.as_chunks::<8>();
    let (words, singles) = into.as_chunks_mut::<8>();
    for (eight, word) in eights.iter().zip(words) {
        let low = u64::from_be_bytes(*eight);
        *word = (high << (64 - left) | low >> left).to_be_bytes();
        high = low;
    }
    for (octet, single) in rest.iter().zip(singles) {
        let low = u64::from(*octet);
        *single = (high << (8 - left) | low >> left) as u8;
        high = low;
    }
    high
}

/// Reads bits, the highest first.
pub struct BitReader<'a> {
    octets: &'a [u8],
    place: usize,
}

impl<'a> BitReader<'a> {
    pub fn new(octets: &'a [u8]) -> Self {
        BitReader { octets, place: 0 }
    }

    /// The number in the next `width` bits, of which there are at most 57.
    #[inline(always)]
    pub fn take(&mut self, width: u32) -> Option<u64> {
        let end = self.place + width as usize;
        if end > 8 * self.octets.len() {
            return None;
        }
        let front = &self.octets[self.place / 8..];
        let eight = match front.first_chunk::<8>() {
            Some(eight) => u64::from_be_bytes(*eight),
            None => {
                let mut eight = [0; 8];
                eight[..front.len()].copy_from_slice(front);
                u64::from_be_bytes(eight)
            }
        };
        let number = (eight << (self.place % 8)) >> (64 - width);
        self.place = end;
        Some(number)
    }

    /// The next bit.
    #[inline(always)]
    pub fn take_flag(&mut self) -> Option<bool> {
        Some(self.take(1)? == 1)
    }

    /// Passes a number that admits no other value.
    #[inline(always)]
    pub fn take_constant(&mut self, width: u32, number: u64) -> Option<()> {
        (self.take(width)? == number).then_some(())
    }

    /// The next bits.
    #[inline(always)]
    pub fn take_flags<const N: usize>(&mut self) -> Option<[bool; N]> {
        let number = self.take(N as u32)?;
        Some(std::array::from_fn(|place| number >> (N - 1 - place) & 1 == 1))
    }

    /// What `take` reads, where it is there.
    #[inline(always)]
    pub fn take_if<T>(
        &mut self,
        is_there: bool,
        take: impl FnOnce(&mut Self) -> Option<T>,
    ) -> Option<Option<T>> {
        match is_there {
            true => take(self).map(Some),
            false => Some(None),
        }
    }

    /// A number of LOW..HIGH.
    #[inline(always)]
    pub fn take_ranged<const LOW: i64, const HIGH: i64>(&mut self) -> Option<i64> {
        let number = self.take(const { width(LOW, HIGH) })? as i64 + LOW;
        (number <= HIGH).then_some(number)
    }

    /// An INTEGER (LOW..HIGH, ...).
    #[inline]
    pub fn take_marked<const LOW: i64, const HIGH: i64>(&mut self) -> Option<i64> {
        if !self.take_flag()? {
            return self.take_ranged::<LOW, HIGH>();
        }
        let octets = self.take(8)? as u32;
        if !(1..=8).contains(&octets) {
            return None;
        }
        let high = self.take(8)? as i8;
        let low = self.take_rest(8 * (octets - 1))?;
        let number = i64::from(high).unbounded_shl(8 * (octets - 1)) | low as i64;
        (signed_octets(number) == octets && !(LOW..=HIGH).contains(&number)).then_some(number)
    }

    /// The number in the next bits, of which there are at most 56 or none.
    fn take_rest(&mut self, width: u32) -> Option<u64> {
        match width {
            0 => Some(0),
            _ => self.take(width),
        }
    }

    /// The general length of what has fewer than 16384 items.
    pub fn take_length(&mut self) -> Option<usize> {
        if !self.take_flag()? {
            return Some(self.take(7)? as usize);
        }
        let length = self.take(15)? as usize;
        (128..16384).contains(&length).then_some(length)
    }

    /// So many single bits.
    pub fn take_bits(&mut self, count: usize) -> Option<Vec<bool>> {
        let mut taken = Vec::with_capacity(count);
        while taken.len() < count {
            let part = (count - taken.len()).min(32) as u32;
            let number = self.take(part)?;
            taken.extend((0..part).rev().map(|place| number >> place & 1 == 1));
        }
        Some(taken)
    }

    /// A BIT STRING (SIZE (ROOT, ...)) of fewer than 16384 bits.
    pub fn take_bit_string<const ROOT: usize>(&mut self) -> Option<Vec<bool>> {
        if !self.take_flag()? {
            return self.take_bits(ROOT);
        }
        let length = self.take_length()?;
        if length == ROOT {
            return None;
        }
        self.take_bits(length)
    }

    /// So many characters of seven bits.
    pub fn take_characters(&mut self, count: usize) -> Option<Vec<u8>> {
        let mut text = Vec::with_capacity(count);
        for _ in 0..count {
            text.push(self.take(7)? as u8);
        }
        Some(text)
    }

    /// What stands in an open field of fewer than 128 octets, and has at least one bit.
    pub fn take_open<T>(&mut self, take: impl FnOnce(&mut Self) -> Option<T>) -> Option<T> {
        let length = self.take(8)? as usize;
        if length >= 128 {
            return None;
        }
        let end = self.place + 8 * length;
        let content = take(self)?;
        let left = end.checked_sub(self.place)? as u32;
        (left < 8 && self.take_rest(left)? == 0).then_some(content)
    }

    /// The next `count` octets.
    pub fn take_octets(&mut self, count: usize) -> Option<Vec<u8>> {
        let end = self.place + 8 * count;
        if end > 8 * self.octets.len() {
            return None;
        }
        let front = &self.octets[self.place / 8..];
        let shift = self.place % 8;
        self.place = end;
        if shift == 0 {
            return Some(front[..count].to_vec());
        }
        let mut taken = vec![0; count];
        let high = u64::from(front[0]);
        move_after(high, 8 - shift as u32, &front[1..=count], &mut taken);
        Some(taken)
    }

    /// Whether only the zeros that fill the last octet are left.
    pub fn is_at_end(&self) -> bool {
        self.place.div_ceil(8) == self.octets.len()
            && (self.place % 8 == 0 || self.octets[self.octets.len() - 1] << (self.place % 8) == 0)
    }
}

/// How many bits the numbers from `low` to `high` need.
pub const fn width(low: i64, high: i64) -> u32 {
    64 - ((high - low) as u64).leading_zeros()
}

/// The fewest octets of the number in two's complement.
fn signed_octets(number: i64) -> u32 {
    let bits = 65 - (number ^ number >> 63).leading_zeros();
    bits.div_ceil(8)
}
