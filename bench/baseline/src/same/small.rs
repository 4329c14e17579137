//! SEQUENCE { id INTEGER (0..7), ok BOOLEAN DEFAULT TRUE, flag BOOLEAN OPTIONAL }
use crate::rules::{Reader, Writer};
use crate::value::Value;

pub fn sample() -> Value {
    Value::Seq(vec![Some(Value::Int(5)), Some(Value::Bool(true)), Some(Value::Bool(true))])
}

/// The octets, or `None` where this is no value of the type.
pub fn encode<W: Writer>(value: &Value) -> Option<Vec<u8>> {
    let [Some(id), Some(Value::Bool(ok)), flag] = value.entries()? else {
        return None;
    };
    let mut bits = W::with_capacity(3);
    bits.put_preamble([!ok, flag.is_some()]);
    bits.put_int::<0, 7>(id)?;
    if !ok {
        bits.put_truth(false);
    }
    if let Some(flag) = flag {
        bits.put_bool(flag)?;
    }
    Some(bits.finish())
}

/// The value, or `None` where the octets are no encoding of one.
pub fn decode<'a, R: Reader + From<&'a [u8]>>(octets: &'a [u8]) -> Option<Value> {
    let mut bits = R::from(octets);
    let [has_ok, has_flag] = bits.take_preamble()?;
    let id = bits.take_int::<0, 7>()?;
    if has_ok && bits.take_truth()? {
        return None;
    }
    let flag = match has_flag {
        true => Some(bits.take_bool()?),
        false => None,
    };
    let entries = vec![Some(id), Some(Value::Bool(!has_ok)), flag];
    bits.is_at_end().then_some(Value::Seq(entries))
}
