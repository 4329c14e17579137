//! 18 OCTET STRING (SIZE (LOW..HIGH)), after a BOOLEAN where the message is flagged.
use crate::rows::{LENGTH, MOST, STRINGS};
use crate::rules::{Reader, Writer};
use crate::value::Value;

/// A SEQUENCE of these strings.
pub struct Strings<const FLAGGED: bool, const LOW: i64, const HIGH: i64>;

/// Its lengths have 11 bits, and but for two none ends an octet.
pub type Shifted = Strings<true, 0, 2000>;

/// Its lengths have eight bits.
pub type Aligned = Strings<false, 1000, 1255>;

impl<const FLAGGED: bool, const LOW: i64, const HIGH: i64> Strings<FLAGGED, LOW, HIGH> {
    /// How many components it has.
    const COMPONENTS: usize = FLAGGED as usize + STRINGS;

    pub fn sample(source: &[u8]) -> Value {
        let mut entries = Vec::with_capacity(Self::COMPONENTS);
        if FLAGGED {
            entries.push(Some(Value::Bool(true)));
        }
        for part in source.windows(LENGTH).take(STRINGS) {
            entries.push(Some(Value::Octets(part.to_vec())));
        }
        Value::Seq(entries)
    }

    /// Four messages without the BOOLEAN, of strings of 1000 to 1255 octets, each length at another place.
    pub fn turns(source: &[u8]) -> Vec<Value> {
        let turn = |turn: usize| {
            let parts = source.windows(MOST).take(STRINGS).enumerate();
            let strings = parts.map(|(place, part)| &part[..LENGTH + ((place * 37 + turn * 64) & 255)]);
            Value::Seq(strings.map(|string| Some(Value::Octets(string.to_vec()))).collect())
        };
        vec![Self::sample(source), turn(1), turn(2), turn(3)]
    }

    /// The octets, or `None` where this is no value of the type.
    pub fn encode<W: Writer>(value: &Value) -> Option<Vec<u8>> {
        let Value::Seq(entries) = value else {
            return None;
        };
        if entries.len() != Self::COMPONENTS {
            return None;
        }
        let (flags, strings) = entries.split_at(FLAGGED as usize);
        let all: usize = strings.iter().map(most_octets).sum();
        let mut bits = W::with_capacity(8 + all);
        for flag in flags {
            bits.put_bool(flag.as_ref()?)?;
        }
        for string in strings {
            bits.put_octet_string::<LOW, HIGH>(string.as_ref()?)?;
        }
        Some(bits.finish())
    }

    /// The value, or `None` where the octets are no encoding of one.
    pub fn decode<'a, R: Reader + From<&'a [u8]>>(octets: &'a [u8]) -> Option<Value> {
        let mut bits = R::from(octets);
        let mut entries = Vec::with_capacity(Self::COMPONENTS);
        if FLAGGED {
            entries.push(Some(bits.take_bool()?));
        }
        for _ in 0..STRINGS {
            entries.push(Some(bits.take_octet_string::<LOW, HIGH>()?));
        }
        bits.is_at_end().then_some(Value::Seq(entries))
    }
}

/// The most octets that a string and its length take.
fn most_octets(entry: &Option<Value>) -> usize {
    match entry {
        Some(Value::Octets(octets)) => 3 + octets.len(),
        _ => 0,
    }
}
