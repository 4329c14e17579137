//! The parts of messages in Canonical OER (X.696). Strings of 65,536 octets and more are refused.
use crate::octets::{OctetReader, OctetWriter};
use crate::rules::{Reader, Writer};
use crate::value::Value;

/// How many octets an INTEGER (low..high) has.
const fn octets_of(low: i64, high: i64) -> usize {
    match low < 0 {
        false if high <= 0xff => 1,
        false if high <= 0xffff => 2,
        false if high <= 0xffff_ffff => 4,
        true if low >= i8::MIN as i64 && high <= i8::MAX as i64 => 1,
        true if low >= i16::MIN as i64 && high <= i16::MAX as i64 => 2,
        true if low >= i32::MIN as i64 && high <= i32::MAX as i64 => 4,
        _ => 8,
    }
}

/// The octet of the tag of an alternative, of which there are at most 63.
const fn tag(place: u32) -> u64 {
    0x80 | place as u64
}

impl Writer for OctetWriter {
    fn with_capacity(octets: usize) -> Self {
        OctetWriter { octets: Vec::with_capacity(octets) }
    }

    fn finish(self) -> Vec<u8> {
        self.octets
    }

    #[inline(always)]
    fn put_truth(&mut self, truth: bool) {
        self.put(1, if truth { 0xff } else { 0 });
    }

    #[inline(always)]
    fn put_int<const LOW: i64, const HIGH: i64>(&mut self, value: &Value) -> Option<()> {
        let Value::Int(number) = value else {
            return None;
        };
        let number = i64::try_from(*number).ok()?;
        if !(LOW..=HIGH).contains(&number) {
            return None;
        }
        self.put(const { octets_of(LOW, HIGH) }, number as u64);
        Some(())
    }

    #[inline]
    fn put_marked_int<const LOW: i64, const HIGH: i64>(&mut self, value: &Value) -> Option<()> {
        let Value::Int(number) = value else {
            return None;
        };
        self.put_signed(i64::try_from(*number).ok()?);
        Some(())
    }

    #[inline(always)]
    fn put_enum_from<const FIRST: i64, const ITEMS: i64>(&mut self, value: &Value) -> Option<()> {
        let Value::Enum(place) = value else {
            return None;
        };
        const { assert!(FIRST >= 0 && FIRST + ITEMS <= 128) };
        if i64::from(*place) >= ITEMS {
            return None;
        }
        self.put(1, FIRST as u64 + u64::from(*place));
        Some(())
    }

    #[inline(always)]
    fn put_marked_enum<const FIRST: i64, const ROOT: i64, const ALL: i64>(
        &mut self,
        value: &Value,
    ) -> Option<()> {
        self.put_enum_from::<FIRST, ALL>(value)
    }

    #[inline]
    fn put_fixed_bits<const LENGTH: usize>(&mut self, value: &Value) -> Option<()> {
        let Value::Bits(bits) = value else {
            return None;
        };
        let bits: &[bool; LENGTH] = bits.as_slice().try_into().ok()?;
        self.put_flags(*bits);
        Some(())
    }

    #[inline]
    fn put_marked_bits<const ROOT: usize>(&mut self, value: &Value) -> Option<()> {
        let Value::Bits(bits) = value else {
            return None;
        };
        let octets = bits.len().div_ceil(8);
        self.put_length(1 + octets)?;
        self.put(1, (8 * octets - bits.len()) as u64);
        self.put_bits(bits);
        Some(())
    }

    #[inline]
    fn put_four_octets(&mut self, value: &Value) -> Option<()> {
        let Value::Octets(octets) = value else {
            return None;
        };
        let four: [u8; 4] = octets.as_slice().try_into().ok()?;
        self.octets.extend_from_slice(&four);
        Some(())
    }

    #[inline(always)]
    fn put_octet_string<const LOW: i64, const HIGH: i64>(&mut self, value: &Value) -> Option<()> {
        let Value::Octets(octets) = value else {
            return None;
        };
        if !(LOW..=HIGH).contains(&(octets.len() as i64)) {
            return None;
        }
        self.put_length(octets.len())?;
        self.octets.extend_from_slice(octets);
        Some(())
    }

    #[inline]
    fn put_ia5<const LOW: i64, const HIGH: i64>(&mut self, value: &Value) -> Option<()> {
        let Value::Text(text) = value else {
            return None;
        };
        if !(LOW..=HIGH).contains(&(text.len() as i64)) || !text.is_ascii() {
            return None;
        }
        self.put_length(text.len())?;
        self.octets.extend_from_slice(text);
        Some(())
    }

    #[inline(always)]
    fn put_preamble<const N: usize>(&mut self, flags: [bool; N]) {
        self.put_flags(flags);
    }

    #[inline(always)]
    fn put_count<const LOW: i64, const HIGH: i64>(&mut self, count: usize) -> Option<()> {
        const { assert!(HIGH < 65536) };
        if !(LOW..=HIGH).contains(&(count as i64)) {
            return None;
        }
        match count {
            0..256 => self.put(2, 0x100 | count as u64),
            _ => self.put(3, 0x2_0000 | count as u64),
        }
        Some(())
    }

    #[inline(always)]
    fn put_alternative<const ALL: u32>(&mut self, place: u32) {
        self.put(1, tag(place));
    }

    #[inline(always)]
    fn put_marked_alternative<const ROOT: u32>(&mut self, place: u32) {
        self.put(1, tag(place));
    }

    #[inline(always)]
    fn put_additions<const N: usize>(&mut self, flags: [bool; N]) {
        let octets = const { N.div_ceil(8) };
        self.put(2, (1 + octets as u64) << 8 | (8 * octets - N) as u64);
        self.put_flags(flags);
    }

    #[inline]
    fn put_open(&mut self, _: usize, put: impl FnOnce(&mut Self) -> Option<()>) -> Option<()> {
        let place = self.octets.len();
        self.octets.push(0);
        put(self)?;
        let length = self.octets.len() - place - 1;
        self.octets[place] = length as u8;
        (length < 128).then_some(())
    }
}

impl<'a> From<&'a [u8]> for OctetReader<'a> {
    fn from(octets: &'a [u8]) -> Self {
        OctetReader { octets }
    }
}

impl Reader for OctetReader<'_> {
    fn is_at_end(&self) -> bool {
        self.octets.is_empty()
    }

    #[inline(always)]
    fn take_truth(&mut self) -> Option<bool> {
        match self.take::<1>()? {
            0 => Some(false),
            0xff => Some(true),
            _ => None,
        }
    }

    #[inline(always)]
    fn take_int<const LOW: i64, const HIGH: i64>(&mut self) -> Option<Value> {
        let octets = const { octets_of(LOW, HIGH) };
        let number = self.take_number(octets)?;
        let number = match octets {
            8 if LOW >= 0 => i64::try_from(number).ok()?,
            1 if LOW < 0 => number as i8 as i64,
            2 if LOW < 0 => number as i16 as i64,
            4 if LOW < 0 => number as i32 as i64,
            _ => number as i64,
        };
        (LOW..=HIGH).contains(&number).then_some(Value::Int(number.into()))
    }

    #[inline]
    fn take_marked_int<const LOW: i64, const HIGH: i64>(&mut self) -> Option<Value> {
        Some(Value::Int(self.take_signed()?.into()))
    }

    #[inline(always)]
    fn take_enum_from<const FIRST: i64, const ITEMS: i64>(&mut self) -> Option<Value> {
        let place = self.take::<1>()? as i64 - FIRST;
        (0..ITEMS).contains(&place).then_some(Value::Enum(place as u32))
    }

    #[inline(always)]
    fn take_marked_enum<const FIRST: i64, const ROOT: i64, const ALL: i64>(&mut self) -> Option<Value> {
        self.take_enum_from::<FIRST, ALL>()
    }

    #[inline]
    fn take_fixed_bits<const LENGTH: usize>(&mut self) -> Option<Value> {
        Some(Value::Bits(self.take_flags::<LENGTH>()?.into()))
    }

    #[inline]
    fn take_marked_bits<const ROOT: usize>(&mut self) -> Option<Value> {
        let octets = self.take_length()?.checked_sub(1)?;
        let unused = self.take::<1>()? as usize;
        if unused > 7 {
            return None;
        }
        Some(Value::Bits(self.take_bits((8 * octets).checked_sub(unused)?)?))
    }

    #[inline]
    fn take_four_octets(&mut self) -> Option<Value> {
        Some(Value::Octets(self.take_octets(4)?.to_vec()))
    }

    #[inline(always)]
    fn take_octet_string<const LOW: i64, const HIGH: i64>(&mut self) -> Option<Value> {
        let length = self.take_length()?;
        if !(LOW..=HIGH).contains(&(length as i64)) {
            return None;
        }
        Some(Value::Octets(self.take_octets(length)?.to_vec()))
    }

    #[inline]
    fn take_ia5<const LOW: i64, const HIGH: i64>(&mut self) -> Option<Value> {
        let length = self.take_length()?;
        let text = self.take_octets(length)?;
        let is_one = (LOW..=HIGH).contains(&(length as i64)) && text.is_ascii();
        is_one.then(|| Value::Text(text.to_vec()))
    }

    #[inline(always)]
    fn take_preamble<const N: usize>(&mut self) -> Option<[bool; N]> {
        self.take_flags()
    }

    #[inline(always)]
    fn take_count<const LOW: i64, const HIGH: i64>(&mut self) -> Option<usize> {
        let count = match self.take::<1>()? {
            1 => self.take::<1>()?,
            2 => self.take::<2>().filter(|count| *count >= 256)?,
            _ => return None,
        };
        (LOW..=HIGH).contains(&(count as i64)).then_some(count as usize)
    }

    #[inline(always)]
    fn take_alternative<const ALL: u32>(&mut self) -> Option<u32> {
        let place = self.take::<1>()?.checked_sub(tag(0))? as u32;
        (place < ALL).then_some(place)
    }

    #[inline(always)]
    fn take_marked_alternative<const ROOT: u32, const ALL: u32>(&mut self) -> Option<u32> {
        self.take_alternative::<ALL>()
    }

    #[inline(always)]
    fn take_additions<const N: usize>(&mut self) -> Option<[bool; N]> {
        let octets = const { N.div_ceil(8) as u64 };
        if self.take::<2>()? != (1 + octets) << 8 | (8 * octets - N as u64) {
            return None;
        }
        let flags = self.take_flags()?;
        flags.contains(&true).then_some(flags)
    }

    #[inline]
    fn take_open<T>(&mut self, take: impl FnOnce(&mut Self) -> Option<T>) -> Option<T> {
        let length = self.take::<1>()? as usize;
        if length >= 128 {
            return None;
        }
        let (content, rest) = self.octets.split_at_checked(length)?;
        self.octets = content;
        let taken = take(self)?;
        if !self.octets.is_empty() {
            return None;
        }
        self.octets = rest;
        Some(taken)
    }
}
