//! Both forms by hand take the same octets and refuse the same, and what one takes is the encoding of its value.
//! So it is in OER, whose values are those of PER.
use crate::bits::{BitReader, BitWriter};
use crate::hand::{Aligned, Bsm, Cam, List, Small, Wide};
use crate::octets::{OctetReader, OctetWriter};
use crate::same::{bsm, cam, list, small, strings, wide};
use crate::value::Value;

/// A message's own octets, those with each bit changed, those cut short and made longer, and many with several
/// bits changed.
fn candidates(octets: &[u8]) -> Vec<Vec<u8>> {
    let mut all = vec![octets.to_vec(), [octets, &[0]].concat()];
    all.extend((0..octets.len()).map(|length| octets[..length].to_vec()));
    for bit in 0..8 * octets.len() {
        let mut changed = octets.to_vec();
        changed[bit / 8] ^= 1 << (bit % 8);
        all.push(changed);
    }
    let mut state = 1u64;
    let mut next = |below: usize| {
        state = state.wrapping_mul(6364136223846793005).wrapping_add(1442695040888963407);
        (state >> 33) as usize % below
    };
    for round in 0..200_000 {
        let mut changed = octets.to_vec();
        for _ in 0..2 + round % 8 {
            let bit = next(8 * octets.len());
            changed[bit / 8] ^= 1 << (bit % 8);
        }
        changed[next(octets.len())] = next(256) as u8;
        if round % 2 == 0 {
            changed.truncate(1 + next(octets.len()));
        }
        all.push(changed);
    }
    all
}

/// The octets from both forms by hand: the one that reads them writes them again.
fn agree(octets: &[u8], forms: [&dyn Fn(&[u8]) -> Option<Option<Vec<u8>>>; 2]) {
    let mut taken = 0;
    for candidate in candidates(octets) {
        let written = forms.map(|form| form(&candidate));
        assert_eq!(written[0], written[1], "{candidate:?}");
        if let [Some(again), _] = written {
            assert_eq!(again.as_deref(), Some(candidate.as_slice()));
            taken += 1;
        }
    }
    println!("{taken} taken");
    assert!(taken > 100);
}

#[test]
fn both_forms_agree() {
    agree(
        &Small::sample().encode().unwrap(),
        [&|octets| Some(Small::decode(octets)?.encode()), &|octets| {
            Some(small::encode::<BitWriter>(&small::decode::<BitReader>(octets)?))
        }],
    );
    agree(
        &Wide::sample().encode().unwrap(),
        [&|octets| Some(Wide::decode(octets)?.encode()), &|octets| {
            Some(wide::encode::<BitWriter>(&wide::decode::<BitReader>(octets)?))
        }],
    );
    agree(
        &Cam::sample().encode().unwrap(),
        [&|octets| Some(Cam::decode(octets)?.encode()), &|octets| {
            Some(cam::encode::<BitWriter>(&cam::decode::<BitReader>(octets)?))
        }],
    );
    agree(
        &Bsm::sample().encode().unwrap(),
        [&|octets| Some(Bsm::decode(octets)?.encode()), &|octets| {
            Some(bsm::encode::<BitWriter>(&bsm::decode::<BitReader>(octets)?))
        }],
    );
}

#[test]
fn both_forms_of_lists_agree() {
    let some = List { readings: List::sample().readings.into_iter().take(20).collect() };
    agree(
        &some.encode().unwrap(),
        [&|octets| Some(List::decode(octets)?.encode()), &|octets| {
            Some(list::encode::<BitWriter>(&list::decode::<BitReader>(octets)?))
        }],
    );
}

#[test]
fn both_forms_of_strings_agree() {
    let octets = Aligned::sample(&crate::rows::source()).encode().unwrap();
    for candidate in [octets.as_slice(), &octets[1..], &octets[..octets.len() - 1]] {
        let by_struct = Aligned::decode(candidate).map(|message| message.encode());
        let by_value = strings::Aligned::decode::<BitReader>(candidate)
            .map(|value| strings::Aligned::encode::<BitWriter>(&value));
        assert_eq!(by_struct, by_value);
    }
}

/// What OER reads is written again as it came; and it is a value that PER writes, reads, and OER writes the same.
macro_rules! both_rules_agree {
    ($message:ident, $values:expr) => {
        for value in $values {
            let octets = $message::encode::<OctetWriter>(&value).unwrap();
            let through_per = |octets: &[u8]| {
                let value = $message::decode::<OctetReader>(octets)?;
                let per = $message::encode::<BitWriter>(&value).unwrap();
                let value = $message::decode::<BitReader>(&per).unwrap();
                Some($message::encode::<OctetWriter>(&value))
            };
            agree(
                &octets,
                [&through_per, &|octets| {
                    Some($message::encode::<OctetWriter>(&$message::decode::<OctetReader>(octets)?))
                }],
            );
            let per = $message::encode::<BitWriter>(&value).unwrap();
            let again = $message::decode::<BitReader>(&per).unwrap();
            assert_eq!($message::encode::<OctetWriter>(&again).unwrap(), octets);
        }
    };
}

#[test]
fn both_rules_agree_on_small_and_wide() {
    both_rules_agree!(small, [small::sample()]);
    both_rules_agree!(wide, [wide::sample()]);
}

#[test]
fn both_rules_agree_on_cam() {
    both_rules_agree!(cam, cam::turns());
}

#[test]
fn both_rules_agree_on_bsm() {
    both_rules_agree!(bsm, bsm::turns());
}

#[test]
fn both_rules_agree_on_a_list() {
    let Value::List(mut readings) = list::sample() else { unreachable!() };
    readings.truncate(20);
    both_rules_agree!(list, [Value::List(readings)]);
}

#[test]
fn both_rules_agree_on_strings() {
    let source = crate::rows::source();
    let shifted = strings::Shifted::sample(&source);
    let octets = strings::Shifted::encode::<OctetWriter>(&shifted).unwrap();
    let read = strings::Shifted::decode::<OctetReader>(&octets).unwrap();
    let per = strings::Shifted::encode::<BitWriter>(&shifted);
    assert_eq!(strings::Shifted::encode::<BitWriter>(&read), per);
    for value in strings::Aligned::turns(&source) {
        let octets = strings::Aligned::encode::<OctetWriter>(&value).unwrap();
        let read = strings::Aligned::decode::<OctetReader>(&octets).unwrap();
        let per = strings::Aligned::encode::<BitWriter>(&value);
        assert_eq!(strings::Aligned::encode::<BitWriter>(&read), per);
        assert!(strings::Aligned::decode::<OctetReader>(&octets[1..]).is_none());
        assert!(strings::Aligned::decode::<OctetReader>(&octets[..octets.len() - 1]).is_none());
    }
}
