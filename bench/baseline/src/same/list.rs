//! The message of `modules/list.asn`, as a value of the same kinds as the proved crates have.
use crate::rows::states;
use crate::rules::{Reader, Writer};
use crate::value::Value;

/// The octets, or `None` where this is no value of the type.
pub fn encode<W: Writer>(value: &Value) -> Option<Vec<u8>> {
    let Value::List(readings) = value else {
        return None;
    };
    let mut bits = W::with_capacity(3 + 14 * readings.len());
    bits.put_count::<0, 1000>(readings.len())?;
    readings.iter().try_for_each(|reading| put_reading(&mut bits, reading))?;
    Some(bits.finish())
}

/// The value, or `None` where the octets are no encoding of one.
pub fn decode<'a, R: Reader + From<&'a [u8]>>(octets: &'a [u8]) -> Option<Value> {
    let mut bits = R::from(octets);
    let count = bits.take_count::<0, 1000>()?;
    let mut readings = Vec::with_capacity(count);
    for _ in 0..count {
        readings.push(take_reading(&mut bits)?);
    }
    bits.is_at_end().then_some(Value::List(readings))
}

/// Writes Reading.
fn put_reading(bits: &mut impl Writer, value: &Value) -> Option<()> {
    let [Some(id), Some(kind), Some(valid), Some(position), grade, Some(Value::Bool(repeated))] =
        value.entries()?
    else {
        return None;
    };
    let [Some(x), Some(y), height] = position.entries()? else {
        return None;
    };
    bits.put_preamble([grade.is_some(), *repeated]);
    bits.put_int::<0, 65535>(id)?;
    bits.put_enum::<5>(kind)?;
    bits.put_bool(valid)?;
    bits.put_preamble([height.is_some()]);
    bits.put_int::<-2000, 2000>(x)?;
    bits.put_int::<-2000, 2000>(y)?;
    if let Some(height) = height {
        bits.put_int::<0, 255>(height)?;
    }
    if let Some(grade) = grade {
        bits.put_int::<1, 16>(grade)?;
    }
    if *repeated {
        bits.put_truth(true);
    }
    Some(())
}

fn take_reading<R: Reader>(bits: &mut R) -> Option<Value> {
    let [has_grade, repeated] = bits.take_preamble()?;
    let id = bits.take_int::<0, 65535>()?;
    let kind = bits.take_enum::<5>()?;
    let valid = bits.take_bool()?;
    let [has_height] = bits.take_preamble()?;
    let position = Value::Seq(vec![
        Some(bits.take_int::<-2000, 2000>()?),
        Some(bits.take_int::<-2000, 2000>()?),
        bits.take_if(has_height, R::take_int::<0, 255>)?,
    ]);
    let grade = bits.take_if(has_grade, R::take_int::<1, 16>)?;
    if repeated && !bits.take_truth()? {
        return None;
    }
    let repeated = Some(Value::Bool(repeated));
    Some(Value::Seq(vec![Some(id), Some(kind), Some(valid), Some(position), grade, repeated]))
}

/// 300 readings.
pub fn sample() -> Value {
    readings(300, 1)
}

/// Four messages of changing shape.
pub fn turns() -> Vec<Value> {
    vec![sample(), readings(40, 2), readings(260, 3), readings(120, 4)]
}

fn readings(count: usize, seed: u32) -> Value {
    Value::List(states(count, seed).map(reading).collect())
}

fn reading(state: u32) -> Value {
    let part = |from: u32, below: u32| state >> from & below;
    let int = |number: u32| Some(Value::Int(number.into()));
    let position = vec![
        Some(Value::Int(i128::from(part(3, 2047)) - 1000)),
        Some(Value::Int(i128::from(part(14, 2047)) - 1000)),
        if part(25, 1) == 1 { int(part(9, 255)) } else { None },
    ];
    Value::Seq(vec![
        int(part(16, 65535)),
        Some(Value::Enum(part(29, 3))),
        Some(Value::Bool(part(28, 1) == 1)),
        Some(Value::Seq(position)),
        if part(27, 1) == 1 { int(part(20, 7) + 1) } else { None },
        Some(Value::Bool(part(26, 1) == 1)),
    ])
}
