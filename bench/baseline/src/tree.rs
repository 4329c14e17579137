//! The same trees of types and values, and the same steps, as the proved crates have: what they
//! would cost in Rust.
use crate::rows::{LENGTH, ROWS, STRINGS};

#[derive(Clone, Copy)]
pub struct Bounds {
    low: i128,
    high: Option<i128>,
}

pub enum Need {
    Must,
    Optional,
    Default(Value),
}

pub struct Field {
    #[allow(dead_code)]
    name: String,
    ty: AsnType,
    need: Need,
}

pub enum AsnType {
    Bool,
    Int(Bounds),
    Octets { low: u32, high: u32 },
    Seq { root: Vec<Field> },
}

#[derive(PartialEq)]
pub enum Value {
    Bool(bool),
    Int(i128),
    Octets(Vec<u8>),
    Seq(Vec<Option<Value>>),
}

fn field(name: &str, ty: AsnType, need: Need) -> Field {
    Field { name: name.to_string(), ty, need }
}

fn integer(low: i64, high: i64) -> AsnType {
    AsnType::Int(Bounds { low: low.into(), high: Some(high.into()) })
}

pub fn small_type() -> AsnType {
    AsnType::Seq {
        root: vec![
            field("id", integer(0, 7), Need::Must),
            field("ok", AsnType::Bool, Need::Default(Value::Bool(true))),
            field("flag", AsnType::Bool, Need::Optional),
        ],
    }
}

pub fn small_value() -> Value {
    Value::Seq(vec![Some(Value::Int(5)), Some(Value::Bool(true)), Some(Value::Bool(true))])
}

pub fn wide_type() -> AsnType {
    let fields = ROWS
        .iter()
        .enumerate()
        .map(|(place, row)| field(&format!("a{place}"), integer(row.0, row.1), Need::Must));
    AsnType::Seq { root: fields.collect() }
}

pub fn wide_value() -> Value {
    Value::Seq(ROWS.iter().map(|row| Some(Value::Int(row.2.into()))).collect())
}

fn strings(low: u32, high: u32) -> impl Iterator<Item = Field> {
    (0..STRINGS).map(move |place| field(&format!("s{place}"), AsnType::Octets { low, high }, Need::Must))
}

fn string_values(source: &[u8]) -> impl Iterator<Item = Option<Value>> + '_ {
    source.windows(LENGTH).take(STRINGS).map(|part| Some(Value::Octets(part.to_vec())))
}

pub fn shifted_type() -> AsnType {
    let flag = field("flag", AsnType::Bool, Need::Must);
    AsnType::Seq { root: std::iter::once(flag).chain(strings(0, 2000)).collect() }
}

pub fn shifted_value(source: &[u8]) -> Value {
    let flag = Some(Value::Bool(true));
    Value::Seq(std::iter::once(flag).chain(string_values(source)).collect())
}

pub fn aligned_type() -> AsnType {
    AsnType::Seq { root: strings(1000, 1255).collect() }
}

pub fn aligned_value(source: &[u8]) -> Value {
    Value::Seq(string_values(source).collect())
}

const LOWEST: i128 = i64::MIN as i128;
const HIGHEST: i128 = i64::MAX as i128;

fn fits(ty: &AsnType, value: &Value) -> bool {
    match (ty, value) {
        (AsnType::Bool, Value::Bool(_)) => true,
        (AsnType::Int(bounds), Value::Int(number)) => {
            LOWEST <= *number
                && *number <= HIGHEST
                && bounds.low <= *number
                && bounds.high.is_none_or(|high| *number <= high)
        }
        (AsnType::Octets { low, high }, Value::Octets(octets)) => {
            *low as usize <= octets.len() && octets.len() <= *high as usize
        }
        (AsnType::Seq { root }, Value::Seq(entries)) => {
            root.len() == entries.len()
                && root.iter().zip(entries).all(|(field, entry)| match entry {
                    Some(value) => fits(&field.ty, value),
                    None => matches!(field.need, Need::Optional),
                })
        }
        _ => false,
    }
}

fn width(values: u128) -> u32 {
    128 - values.saturating_sub(1).leading_zeros()
}

fn above(low: i128, number: i128) -> u64 {
    (number - low) as u64
}

struct BitSink {
    octets: Vec<u8>,
    pending: u8,
    count: u32,
}

impl BitSink {
    fn append(&mut self, k: u32, n: u128) {
        let joined = u128::from(self.pending) << k | n;
        let total = self.count + k;
        let left = total % 8;
        let count = total / 8;
        self.octets.reserve(count as usize);
        for i in 0..count {
            self.octets.push((joined >> (left + 8 * (count - 1 - i))) as u8);
        }
        self.pending = joined as u8;
        self.count = left;
    }

    fn append_octets(&mut self, octets: &[u8]) {
        self.octets.reserve(octets.len());
        if self.count == 0 {
            self.octets.extend_from_slice(octets);
        } else {
            let (pending, left) = (u64::from(self.pending), self.count);
            self.pending = push_shifted(&mut self.octets, left, pending, octets) as u8;
        }
    }
}

/// Adds octets after the low `left` bits of `high`, and gives those that are left over.
fn push_shifted(into: &mut Vec<u8>, left: u32, mut high: u64, octets: &[u8]) -> u64 {
    let eights = octets.chunks_exact(8);
    let rest = eights.remainder();
    for eight in eights {
        let low = u64::from_be_bytes(eight.try_into().unwrap());
        into.extend_from_slice(&(high << (64 - left) | low >> left).to_be_bytes());
        high = low;
    }
    for octet in rest {
        let low = u64::from(*octet);
        into.push((high << (8 - left) | low >> left) as u8);
        high = low;
    }
    high
}

pub fn encode(ty: &AsnType, value: &Value) -> Option<Vec<u8>> {
    if !fits(ty, value) {
        return None;
    }
    let mut sink = BitSink { octets: Vec::new(), pending: 0, count: 0 };
    write(ty, value, &mut sink);
    if sink.octets.is_empty() && sink.count == 0 {
        sink.append(8, 0);
    }
    if sink.count != 0 {
        sink.append(8 - sink.count, 0);
    }
    Some(sink.octets)
}

fn write(ty: &AsnType, value: &Value, sink: &mut BitSink) {
    match (ty, value) {
        (AsnType::Bool, Value::Bool(truth)) => sink.append(1, u128::from(*truth)),
        (AsnType::Int(bounds), Value::Int(number)) => {
            let offset = above(bounds.low, *number);
            let Some(high) = bounds.high else { unreachable!() };
            sink.append(width(u128::from(above(bounds.low, high)) + 1), offset.into());
        }
        (AsnType::Octets { low, high }, Value::Octets(octets)) => {
            let values = u128::from(*high - *low) + 1;
            sink.append(width(values), octets.len() as u128 - u128::from(*low));
            sink.append_octets(octets);
        }
        (AsnType::Seq { root }, Value::Seq(entries)) => {
            let mut count = 0;
            let mut bitmap = 0u64;
            for (field, entry) in root.iter().zip(entries) {
                if !matches!(field.need, Need::Must) {
                    count += 1;
                    bitmap = 2 * bitmap + u64::from(is_encoded(field, entry));
                }
            }
            sink.append(count, bitmap.into());
            for (field, entry) in root.iter().zip(entries) {
                if let Some(value) = entry {
                    if is_encoded(field, entry) {
                        write(&field.ty, value, sink);
                    }
                }
            }
        }
        _ => unreachable!(),
    }
}

fn is_encoded(field: &Field, entry: &Option<Value>) -> bool {
    match &field.need {
        Need::Must => true,
        Need::Optional => entry.is_some(),
        Need::Default(default) => entry.as_ref().is_some_and(|value| value != default),
    }
}

struct BitCursor<'a> {
    octets: &'a [u8],
    offset: u32,
}

impl BitCursor<'_> {
    fn take_number(&mut self, k: u32) -> Option<u64> {
        let end = self.offset + k;
        if self.octets.len() < ((end + 7) / 8) as usize {
            return None;
        }
        let number = self.number_at(end, k);
        self.octets = &self.octets[(end / 8) as usize..];
        self.offset = end % 8;
        Some(number)
    }

    fn take_octets(&mut self, count: usize) -> Option<Vec<u8>> {
        let mut taken = Vec::with_capacity(count);
        if self.offset == 0 {
            taken.extend_from_slice(self.octets.get(..count)?);
        } else {
            let following = self.octets.get(1..count + 1)?;
            push_shifted(&mut taken, 8 - self.offset, u64::from(self.octets[0]), following);
        }
        self.octets = &self.octets[count..];
        Some(taken)
    }

    fn number_at(&self, end: u32, k: u32) -> u64 {
        let mask = (1u128 << k) - 1;
        if let Some((eight, rest)) = self.octets.split_first_chunk::<8>() {
            if let Some(ninth) = rest.first() {
                let front = u128::from(u64::from_be_bytes(*eight)) * 256 + u128::from(*ninth);
                return (front >> (72 - end) & mask) as u64;
            }
        }
        let count = (end + 7) / 8;
        let mut front = 0u128;
        for octet in &self.octets[..count as usize] {
            front = front * 256 + u128::from(*octet);
        }
        (front >> (8 * count - end) & mask) as u64
    }
}

pub fn decode(ty: &AsnType, octets: &[u8]) -> Option<Value> {
    let mut bits = BitCursor { octets, offset: 0 };
    let value = read(ty, None, &mut bits)?;
    if bits.offset != 0 {
        let left = 8 - bits.offset;
        if bits.take_number(left)? != 0 {
            return None;
        }
    }
    bits.octets.is_empty().then_some(value)
}

/// Reads a number from 0 to `high`, but for `except`.
fn number(k: u32, high: u64, except: Option<u64>, bits: &mut BitCursor) -> Option<u64> {
    let number = bits.take_number(k)?;
    (number <= high && except != Some(number)).then_some(number)
}

fn read(ty: &AsnType, except: Option<&Value>, bits: &mut BitCursor) -> Option<Value> {
    match ty {
        AsnType::Bool => {
            let except = match except {
                Some(Value::Bool(truth)) => Some(u64::from(*truth)),
                _ => None,
            };
            Some(Value::Bool(number(1, 1, except, bits)? == 1))
        }
        AsnType::Int(bounds) => {
            let except = match except {
                Some(Value::Int(number)) => Some(above(bounds.low, *number)),
                _ => None,
            };
            let Some(high) = bounds.high else { unreachable!() };
            let high = above(bounds.low, high);
            let offset = number(width(u128::from(high) + 1), high, except, bits)?;
            Some(Value::Int(bounds.low + i128::from(offset)))
        }
        AsnType::Octets { low, high } => {
            let above = u64::from(*high - *low);
            let count = number(width(u128::from(above) + 1), above, None, bits)?;
            Some(Value::Octets(bits.take_octets(*low as usize + count as usize)?))
        }
        AsnType::Seq { root } => {
            let count = root.iter().filter(|f| !matches!(f.need, Need::Must)).count() as u32;
            let mut left = count;
            let bitmap = bits.take_number(count)?;
            let mut entries = Vec::with_capacity(root.len());
            for field in root {
                let (is_there, default) = match &field.need {
                    Need::Must => (true, None),
                    Need::Optional => (next_bit(bitmap, &mut left), None),
                    Need::Default(value) => (next_bit(bitmap, &mut left), Some(value)),
                };
                entries.push(match (is_there, default) {
                    (true, _) => Some(read(&field.ty, default, bits)?),
                    (false, Some(Value::Bool(truth))) => Some(Value::Bool(*truth)),
                    (false, Some(Value::Int(number))) => Some(Value::Int(*number)),
                    (false, _) => None,
                });
            }
            Some(Value::Seq(entries))
        }
    }
}

fn next_bit(bitmap: u64, left: &mut u32) -> bool {
    *left -= 1;
    bitmap >> *left & 1 == 1
}
