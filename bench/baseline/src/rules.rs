//! What the two encoding rules have in common: each message stands once, over these traits, and PER and OER say
//! how its parts are written and read. Each number of a type is a constant.
//!
//! A `put` gives `None` where the value is none of the type, and a `take` where the octets begin with no encoding.
use crate::value::Value;

/// Writes the parts of a message.
pub trait Writer: Sized {
    /// A writer of a message that most often has no more octets.
    fn with_capacity(octets: usize) -> Self;

    fn finish(self) -> Vec<u8>;

    fn put_truth(&mut self, truth: bool);

    /// INTEGER (LOW..HIGH)
    fn put_int<const LOW: i64, const HIGH: i64>(&mut self, value: &Value) -> Option<()>;

    /// INTEGER (LOW..HIGH, ...)
    fn put_marked_int<const LOW: i64, const HIGH: i64>(&mut self, value: &Value) -> Option<()>;

    /// ENUMERATED of that many items, numbered from FIRST on.
    fn put_enum_from<const FIRST: i64, const ITEMS: i64>(&mut self, value: &Value) -> Option<()>;

    /// The same with an extension mark, after ROOT of ALL items.
    fn put_marked_enum<const FIRST: i64, const ROOT: i64, const ALL: i64>(
        &mut self,
        value: &Value,
    ) -> Option<()>;

    /// BIT STRING (SIZE (LENGTH)) of at most 32 bits
    fn put_fixed_bits<const LENGTH: usize>(&mut self, value: &Value) -> Option<()>;

    /// BIT STRING (SIZE (ROOT, ...))
    fn put_marked_bits<const ROOT: usize>(&mut self, value: &Value) -> Option<()>;

    /// OCTET STRING (SIZE (4))
    fn put_four_octets(&mut self, value: &Value) -> Option<()>;

    /// OCTET STRING (SIZE (LOW..HIGH))
    fn put_octet_string<const LOW: i64, const HIGH: i64>(&mut self, value: &Value) -> Option<()>;

    /// IA5String (SIZE (LOW..HIGH))
    fn put_ia5<const LOW: i64, const HIGH: i64>(&mut self, value: &Value) -> Option<()>;

    /// The extension bit of a SEQUENCE and which components are there.
    fn put_preamble<const N: usize>(&mut self, flags: [bool; N]);

    /// How many elements a SEQUENCE (SIZE (LOW..HIGH)) OF has.
    fn put_count<const LOW: i64, const HIGH: i64>(&mut self, count: usize) -> Option<()>;

    /// Which of ALL alternatives a CHOICE has.
    fn put_alternative<const ALL: u32>(&mut self, place: u32);

    /// The same with an extension mark, after ROOT of them.
    fn put_marked_alternative<const ROOT: u32>(&mut self, place: u32);

    /// Which extension additions are there, at least one.
    fn put_additions<const N: usize>(&mut self, flags: [bool; N]);

    /// An open field of fewer than 128 octets, and room for that many.
    fn put_open(&mut self, octets: usize, put: impl FnOnce(&mut Self) -> Option<()>) -> Option<()>;

    /// BOOLEAN
    #[inline(always)]
    fn put_bool(&mut self, value: &Value) -> Option<()> {
        let Value::Bool(truth) = value else {
            return None;
        };
        self.put_truth(*truth);
        Some(())
    }

    /// ENUMERATED of that many items, numbered from 0 on.
    #[inline(always)]
    fn put_enum<const ITEMS: i64>(&mut self, value: &Value) -> Option<()> {
        self.put_enum_from::<0, ITEMS>(value)
    }
}

/// Reads the parts of a message.
pub trait Reader: Sized {
    /// Whether all octets were read, but for zeros that fill the last.
    fn is_at_end(&self) -> bool;

    fn take_truth(&mut self) -> Option<bool>;

    /// INTEGER (LOW..HIGH)
    fn take_int<const LOW: i64, const HIGH: i64>(&mut self) -> Option<Value>;

    /// INTEGER (LOW..HIGH, ...)
    fn take_marked_int<const LOW: i64, const HIGH: i64>(&mut self) -> Option<Value>;

    /// ENUMERATED of that many items, numbered from FIRST on.
    fn take_enum_from<const FIRST: i64, const ITEMS: i64>(&mut self) -> Option<Value>;

    /// The same with an extension mark, after ROOT of ALL items.
    fn take_marked_enum<const FIRST: i64, const ROOT: i64, const ALL: i64>(&mut self) -> Option<Value>;

    /// BIT STRING (SIZE (LENGTH)) of at most 32 bits
    fn take_fixed_bits<const LENGTH: usize>(&mut self) -> Option<Value>;

    /// BIT STRING (SIZE (ROOT, ...))
    fn take_marked_bits<const ROOT: usize>(&mut self) -> Option<Value>;

    /// OCTET STRING (SIZE (4))
    fn take_four_octets(&mut self) -> Option<Value>;

    /// OCTET STRING (SIZE (LOW..HIGH))
    fn take_octet_string<const LOW: i64, const HIGH: i64>(&mut self) -> Option<Value>;

    /// IA5String (SIZE (LOW..HIGH))
    fn take_ia5<const LOW: i64, const HIGH: i64>(&mut self) -> Option<Value>;

    /// The extension bit of a SEQUENCE and which components are there.
    fn take_preamble<const N: usize>(&mut self) -> Option<[bool; N]>;

    /// How many elements a SEQUENCE (SIZE (LOW..HIGH)) OF has.
    fn take_count<const LOW: i64, const HIGH: i64>(&mut self) -> Option<usize>;

    /// Which of ALL alternatives a CHOICE has.
    fn take_alternative<const ALL: u32>(&mut self) -> Option<u32>;

    /// The same with an extension mark, after ROOT of ALL.
    fn take_marked_alternative<const ROOT: u32, const ALL: u32>(&mut self) -> Option<u32>;

    /// Which extension additions are there, at least one.
    fn take_additions<const N: usize>(&mut self) -> Option<[bool; N]>;

    /// What an open field of fewer than 128 octets holds.
    fn take_open<T>(&mut self, take: impl FnOnce(&mut Self) -> Option<T>) -> Option<T>;

    /// BOOLEAN
    #[inline(always)]
    fn take_bool(&mut self) -> Option<Value> {
        Some(Value::Bool(self.take_truth()?))
    }

    /// ENUMERATED of that many items, numbered from 0 on.
    #[inline(always)]
    fn take_enum<const ITEMS: i64>(&mut self) -> Option<Value> {
        self.take_enum_from::<0, ITEMS>()
    }

    /// What `take` reads, where it is there.
    #[inline(always)]
    fn take_if<T>(&mut self, is_there: bool, take: impl FnOnce(&mut Self) -> Option<T>) -> Option<Option<T>> {
        match is_there {
            true => take(self).map(Some),
            false => Some(None),
        }
    }
}
