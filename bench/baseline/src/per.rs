//! The parts of messages in PER (X.691, unaligned).
use crate::bits::{width, BitReader, BitWriter};
use crate::rules::{Reader, Writer};
use crate::value::Value;

impl Writer for BitWriter {
    fn with_capacity(octets: usize) -> Self {
        BitWriter::with_capacity(octets)
    }

    fn finish(self) -> Vec<u8> {
        BitWriter::finish(self)
    }

    #[inline(always)]
    fn put_truth(&mut self, truth: bool) {
        self.put(1, u64::from(truth));
    }

    #[inline(always)]
    fn put_int<const LOW: i64, const HIGH: i64>(&mut self, value: &Value) -> Option<()> {
        let Value::Int(number) = value else {
            return None;
        };
        self.put_ranged::<LOW, HIGH>(i64::try_from(*number).ok()?)
    }

    #[inline]
    fn put_marked_int<const LOW: i64, const HIGH: i64>(&mut self, value: &Value) -> Option<()> {
        let Value::Int(number) = value else {
            return None;
        };
        self.put_marked::<LOW, HIGH>(i64::try_from(*number).ok()?);
        Some(())
    }

    #[inline(always)]
    fn put_enum_from<const FIRST: i64, const ITEMS: i64>(&mut self, value: &Value) -> Option<()> {
        let Value::Enum(place) = value else {
            return None;
        };
        let place = i64::from(*place);
        if place >= ITEMS {
            return None;
        }
        self.put(const { width(0, ITEMS - 1) }, place as u64);
        Some(())
    }

    #[inline(always)]
    fn put_marked_enum<const FIRST: i64, const ROOT: i64, const ALL: i64>(
        &mut self,
        value: &Value,
    ) -> Option<()> {
        let Value::Enum(place) = value else {
            return None;
        };
        let place = i64::from(*place);
        if place < ROOT {
            self.put(const { 1 + width(0, ROOT - 1) }, place as u64);
        } else if place < ALL {
            self.put(8, 1 << 7 | (place - ROOT) as u64);
        } else {
            return None;
        }
        Some(())
    }

    #[inline]
    fn put_fixed_bits<const LENGTH: usize>(&mut self, value: &Value) -> Option<()> {
        let Value::Bits(bits) = value else {
            return None;
        };
        let bits: &[bool; LENGTH] = bits.as_slice().try_into().ok()?;
        self.put_flags(*bits);
        Some(())
    }

    #[inline]
    fn put_marked_bits<const ROOT: usize>(&mut self, value: &Value) -> Option<()> {
        let Value::Bits(bits) = value else {
            return None;
        };
        self.put_bit_string::<ROOT>(bits)
    }

    #[inline]
    fn put_four_octets(&mut self, value: &Value) -> Option<()> {
        let Value::Octets(octets) = value else {
            return None;
        };
        let four = octets.as_slice().try_into().ok()?;
        self.put(32, u32::from_be_bytes(four).into());
        Some(())
    }

    #[inline(always)]
    fn put_octet_string<const LOW: i64, const HIGH: i64>(&mut self, value: &Value) -> Option<()> {
        let Value::Octets(octets) = value else {
            return None;
        };
        self.put_ranged::<LOW, HIGH>(octets.len() as i64)?;
        self.put_octets(octets);
        Some(())
    }

    #[inline]
    fn put_ia5<const LOW: i64, const HIGH: i64>(&mut self, value: &Value) -> Option<()> {
        let Value::Text(text) = value else {
            return None;
        };
        self.put_ranged::<LOW, HIGH>(text.len() as i64)?;
        self.put_characters(text)
    }

    #[inline(always)]
    fn put_preamble<const N: usize>(&mut self, flags: [bool; N]) {
        self.put_flags(flags);
    }

    #[inline(always)]
    fn put_count<const LOW: i64, const HIGH: i64>(&mut self, count: usize) -> Option<()> {
        self.put_ranged::<LOW, HIGH>(count as i64)
    }

    #[inline(always)]
    fn put_alternative<const ALL: u32>(&mut self, place: u32) {
        self.put(const { width(0, ALL as i64 - 1) }, place.into());
    }

    #[inline(always)]
    fn put_marked_alternative<const ROOT: u32>(&mut self, place: u32) {
        match place < ROOT {
            true => self.put(const { 1 + width(0, ROOT as i64 - 1) }, place.into()),
            false => self.put(8, u64::from(1 << 7 | (place - ROOT))),
        }
    }

    #[inline(always)]
    fn put_additions<const N: usize>(&mut self, flags: [bool; N]) {
        self.put(7, N as u64 - 1);
        self.put_flags(flags);
    }

    #[inline]
    fn put_open(&mut self, octets: usize, put: impl FnOnce(&mut Self) -> Option<()>) -> Option<()> {
        let mut content = BitWriter::with_capacity(octets);
        put(&mut content)?;
        BitWriter::put_open(self, content);
        Some(())
    }
}

impl<'a> From<&'a [u8]> for BitReader<'a> {
    fn from(octets: &'a [u8]) -> Self {
        BitReader::new(octets)
    }
}

impl Reader for BitReader<'_> {
    fn is_at_end(&self) -> bool {
        BitReader::is_at_end(self)
    }

    #[inline(always)]
    fn take_truth(&mut self) -> Option<bool> {
        self.take_flag()
    }

    #[inline(always)]
    fn take_int<const LOW: i64, const HIGH: i64>(&mut self) -> Option<Value> {
        Some(Value::Int(self.take_ranged::<LOW, HIGH>()?.into()))
    }

    #[inline]
    fn take_marked_int<const LOW: i64, const HIGH: i64>(&mut self) -> Option<Value> {
        Some(Value::Int(self.take_marked::<LOW, HIGH>()?.into()))
    }

    #[inline(always)]
    fn take_enum_from<const FIRST: i64, const ITEMS: i64>(&mut self) -> Option<Value> {
        let place = self.take(const { width(0, ITEMS - 1) })? as i64;
        (place < ITEMS).then_some(Value::Enum(place as u32))
    }

    #[inline(always)]
    fn take_marked_enum<const FIRST: i64, const ROOT: i64, const ALL: i64>(&mut self) -> Option<Value> {
        let place = if self.take_flag()? {
            ROOT + self.take(7)? as i64
        } else if ROOT == 1 {
            0
        } else {
            let place = self.take(const { width(0, ROOT - 1) })? as i64;
            if place >= ROOT {
                return None;
            }
            place
        };
        (place < ALL).then_some(Value::Enum(place as u32))
    }

    #[inline]
    fn take_fixed_bits<const LENGTH: usize>(&mut self) -> Option<Value> {
        Some(Value::Bits(self.take_flags::<LENGTH>()?.into()))
    }

    #[inline]
    fn take_marked_bits<const ROOT: usize>(&mut self) -> Option<Value> {
        Some(Value::Bits(self.take_bit_string::<ROOT>()?))
    }

    #[inline]
    fn take_four_octets(&mut self) -> Option<Value> {
        let four = self.take(32)? as u32;
        Some(Value::Octets(four.to_be_bytes().into()))
    }

    #[inline(always)]
    fn take_octet_string<const LOW: i64, const HIGH: i64>(&mut self) -> Option<Value> {
        let length = self.take_ranged::<LOW, HIGH>()?;
        Some(Value::Octets(self.take_octets(length as usize)?))
    }

    #[inline]
    fn take_ia5<const LOW: i64, const HIGH: i64>(&mut self) -> Option<Value> {
        let length = self.take_ranged::<LOW, HIGH>()?;
        Some(Value::Text(self.take_characters(length as usize)?))
    }

    #[inline(always)]
    fn take_preamble<const N: usize>(&mut self) -> Option<[bool; N]> {
        self.take_flags()
    }

    #[inline(always)]
    fn take_count<const LOW: i64, const HIGH: i64>(&mut self) -> Option<usize> {
        Some(self.take_ranged::<LOW, HIGH>()? as usize)
    }

    #[inline(always)]
    fn take_alternative<const ALL: u32>(&mut self) -> Option<u32> {
        let place = self.take(const { width(0, ALL as i64 - 1) })? as u32;
        (place < ALL).then_some(place)
    }

    #[inline(always)]
    fn take_marked_alternative<const ROOT: u32, const ALL: u32>(&mut self) -> Option<u32> {
        if !self.take_flag()? {
            return match ROOT {
                1 => Some(0),
                _ => self.take_alternative::<ROOT>(),
            };
        }
        let place = ROOT + self.take(7)? as u32;
        (place < ALL).then_some(place)
    }

    #[inline(always)]
    fn take_additions<const N: usize>(&mut self) -> Option<[bool; N]> {
        self.take_constant(7, N as u64 - 1)?;
        let flags = self.take_flags()?;
        flags.contains(&true).then_some(flags)
    }

    #[inline]
    fn take_open<T>(&mut self, take: impl FnOnce(&mut Self) -> Option<T>) -> Option<T> {
        BitReader::take_open(self, take)
    }
}
