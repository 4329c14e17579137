//! Calls the library on the rows that `bindings/tests/rows.py` writes, in the file that TULVORN_ROWS names; without one, on none.

use tulvorn::{Module, Reason, Rules, Type, Value, Why};

const BOTH: [Rules; 2] = [Rules::Per, Rules::Oer];
const WHYS: [Why; 8] = [
    Why::Sealed,
    Why::Default,
    Why::Length,
    Why::Extension,
    Why::Character,
    Why::Padding,
    Why::Number,
    Why::Constraint,
];

fn octets_of(word: &str) -> Option<Vec<u8>> {
    let digits = word.strip_prefix("0x")?;
    Some(digits.as_bytes().chunks(2).map(|it| u8::from_str_radix(str::from_utf8(it).unwrap(), 16).unwrap()).collect())
}

fn text_of(word: &str) -> Option<String> {
    octets_of(word).map(|octets| String::from_utf8(octets).unwrap())
}

fn rules_of(word: &str) -> Rules {
    BOTH[usize::from(word == "1")]
}

fn other(rules: Rules) -> Rules {
    if rules == Rules::Per { Rules::Oer } else { Rules::Per }
}

fn expect_written(value: &Value, rules: Rules, octets: &[u8]) {
    let mut into = vec![0; octets.len()];
    assert_eq!(value.encode(rules).unwrap(), octets);
    assert_eq!(value.encoded_len(rules).unwrap(), octets.len());
    assert_eq!(value.encode_into(rules, &mut into).unwrap(), octets.len());
    assert_eq!(into, octets);
}

/// The octets are the encoding of a value, which comes back from JSON and from the other rules.
fn expect_taken(ty: &Type, rules: Rules, octets: &[u8]) -> Value {
    ty.check(rules, octets).unwrap();
    assert_eq!(ty.explain(rules, octets).unwrap(), None);
    let value = ty.decode(rules, octets).unwrap();
    let newer = ty.read_newer(rules, octets).unwrap();
    assert!(newer.skipped.is_empty());
    let read = ty.read_json(&value.to_json().unwrap()).unwrap();
    for it in [&value, &newer.value, &read] {
        expect_written(it, rules, octets);
    }
    assert_eq!(ty.convert(other(rules), &ty.convert(rules, octets).unwrap()).unwrap(), octets);
    value
}

/// `value PER OER JSON SHOWN`
fn try_value(ty: &Type, words: &[&str]) {
    for (rules, word, beside) in [(Rules::Per, words[0], words[1]), (Rules::Oer, words[1], words[0])] {
        let Some(octets) = octets_of(word) else { continue };
        let value = expect_taken(ty, rules, &octets);
        if let Some(json) = text_of(words[2]) {
            expect_written(&ty.read_json(&json).unwrap(), rules, &octets);
        }
        if let Some(shown) = text_of(words[3]) {
            assert_eq!(value.to_json().unwrap(), shown);
        }
        if let Some(beside) = octets_of(beside) {
            assert_eq!(ty.convert(rules, &octets).unwrap(), beside);
        }
    }
}

/// `check RULES OCTETS CODE WHY AT`
fn try_check(ty: &Type, words: &[&str]) {
    let (rules, octets) = (rules_of(words[0]), octets_of(words[1]).unwrap());
    let at = words[4].parse().unwrap();
    let reason = match words[2] {
        "0" => {
            expect_taken(ty, rules, &octets);
            return;
        }
        "3" => Reason::Refused { at, why: WHYS[words[3].parse::<usize>().unwrap() - 1] },
        "4" => Reason::Truncated { taken: at },
        _ => Reason::Rest { used: at },
    };
    assert_eq!(ty.check(rules, &octets).unwrap_err().reason, reason);
    assert_eq!(ty.decode(rules, &octets).err().map(|it| it.reason), Some(reason));
    assert_eq!(ty.convert(rules, &octets).unwrap_err().reason, reason);
    assert!(ty.explain(rules, &octets).unwrap().is_some());
}

/// `newer RULES OCTETS CODE SHOWN FIELDS`
fn try_newer(ty: &Type, words: &[&str]) {
    let (rules, octets) = (rules_of(words[0]), octets_of(words[1]).unwrap());
    let answer = ty.read_newer(rules, &octets);
    let reason = match words[2] {
        "0" => {
            let newer = answer.unwrap();
            let fields = words[4].split(',').filter(|it| *it != "-").map(|it| it.split_once(':').unwrap());
            let told: Vec<_> = fields.map(|(place, held)| (place.parse().unwrap(), octets_of(held).unwrap())).collect();
            let skipped: Vec<_> = newer.skipped.into_iter().map(|it| (it.place, it.octets)).collect();
            assert_eq!(newer.value.to_json().ok(), text_of(words[3]));
            assert_eq!(skipped, told);
            return;
        }
        "16" => Reason::NoMessage,
        "17" => Reason::CutMessage,
        _ => Reason::TooManyAdditions,
    };
    assert_eq!(answer.err().map(|it| it.reason), Some(reason));
}

#[test]
fn holds_in_each_row() {
    let Ok(name) = std::env::var("TULVORN_ROWS") else { return };
    let text = std::fs::read_to_string(name).unwrap();
    let (mut module, mut ty, mut rows, mut left) = (None, None, 0, 0);
    for line in text.lines() {
        let words: Vec<_> = line.split(' ').collect();
        let (kind, words) = (words[0], &words[1..]);
        rows += 1;
        match (kind, &ty) {
            ("value", Some(ty)) => try_value(ty, words),
            ("check", Some(ty)) => try_check(ty, words),
            ("newer", Some(ty)) => try_newer(ty, words),
            _ => rows -= 1,
        }
        match kind {
            "module" => module = Some(Module::read(&text_of(words[0]).unwrap()).unwrap()),
            "type" => ty = Some(module.as_ref().unwrap().ty(words[0]).unwrap()),
            "pieces" => left += 1,
            "end" => assert_eq!(rows + left, words[0].parse().unwrap()),
            _ => {}
        }
    }
    assert!(rows > 0);
    println!("Rust: {rows} rows, passed; {left} of sessions left out");
}
