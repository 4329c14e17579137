//! Values as the proved crates have them.

/// A value of whatever type.
#[allow(dead_code)]
pub enum Value {
    Bool(bool),
    Null,
    Int(i128),
    /// The place of the item, root first.
    Enum(u32),
    Bits(Vec<bool>),
    Octets(Vec<u8>),
    Text(Vec<u8>),
    Utf8(String),
    /// One entry a component.
    Seq(Vec<Option<Value>>),
    List(Vec<Value>),
    /// The place of the alternative, root first, and its value.
    Choice(u32, Box<Value>),
}

impl Value {
    /// The entries of a SEQUENCE of `N` components.
    #[inline(always)]
    pub fn entries<const N: usize>(&self) -> Option<&[Option<Value>; N]> {
        match self {
            Value::Seq(entries) => entries.as_slice().try_into().ok(),
            _ => None,
        }
    }
}

/// A SEQUENCE of integers, all of them there.
pub fn integers<const N: usize>(numbers: [i64; N]) -> Value {
    let entries = numbers.into_iter().map(|number| Some(Value::Int(number.into())));
    Value::Seq(entries.collect())
}

/// A BIT STRING of the low bits, the highest first.
pub fn flags(count: u32, number: u32) -> Value {
    let bits = (0..count).rev().map(|place| number >> place & 1 == 1);
    Value::Bits(bits.collect())
}
