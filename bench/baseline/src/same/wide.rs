//! A SEQUENCE of 40 ranged integers.
use crate::rules::{Reader, Writer};
use crate::value::{integers, Value};

macro_rules! wide {
    ($($name:ident: $low:literal..=$high:literal = $number:literal,)*) => {
        /// Room for eight octets a number.
        const OCTETS: usize = 8 * [$($low as i64,)*].len();

        pub fn sample() -> Value {
            integers([$($number,)*])
        }

        /// The octets, or `None` where this is no value of the type.
        pub fn encode<W: Writer>(value: &Value) -> Option<Vec<u8>> {
            let [$(Some($name),)*] = value.entries()? else {
                return None;
            };
            let mut bits = W::with_capacity(OCTETS);
            $(bits.put_int::<$low, $high>($name)?;)*
            Some(bits.finish())
        }

        /// The value, or `None` where the octets are no encoding of one.
        pub fn decode<'a, R: Reader + From<&'a [u8]>>(octets: &'a [u8]) -> Option<Value> {
            let mut bits = R::from(octets);
            let entries = vec![$(Some(bits.take_int::<$low, $high>()?),)*];
            bits.is_at_end().then_some(Value::Seq(entries))
        }
    };
}

wide! {
    a0: 0..=1 = 0,
    a1: 1..=255 = 11,
    a2: -3..=32762 = 15822,
    a3: -2097152..=2097151 = 942034,
    a4: 17..=536870927 = 369754978,
    a5: -100000..=68719376733 = 20629949061,
    a6: 0..=7 = 0,
    a7: 1..=1023 = 801,
    a8: -3..=131066 = 103692,
    a9: -8388608..=8388607 = -7082098,
    a10: 17..=2147483663 = 598712608,
    a11: -100000..=274877806941 = 178698950923,
    a12: 0..=31 = 12,
    a13: 1..=4095 = 2232,
    a14: -3..=524282 = 190494,
    a15: -33554432..=33554431 = -4620470,
    a16: 17..=8589934607 = 4048886621,
    a17: -100000..=1099511527773 = 1092682197141,
    a18: 0..=127 = 40,
    a19: 1..=16383 = 7188,
    a20: -3..=2097146 = 1967128,
    a21: -134217728..=134217727 = -10547450,
    a22: 17..=34359738383 = 33268868985,
    a23: -100000..=-99997 = -99997,
    a24: 0..=511 = 228,
    a25: 1..=65535 = 38337,
    a26: -3..=8388602 = 1375552,
    a27: -536870912..=536870911 = -184246590,
    a28: 17..=137438953487 = 19539179326,
    a29: -100000..=-99987 = -99987,
    a30: 0..=2047 = 1696,
    a31: 1..=262143 = 179256,
    a32: -3..=33554426 = 18147568,
    a33: -2147483648..=2147483647 = 1655320190,
    a34: 17..=549755813903 = 108888704663,
    a35: -100000..=-99939 = -99951,
    a36: 0..=8191 = 5724,
    a37: 1..=1048575 = 313962,
    a38: -3..=134217722 = 11833360,
    a39: -8589934592..=8589934591 = 2958016058,
}
