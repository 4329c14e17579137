//! Calls the library from safe Rust.

use std::sync::OnceLock;
use tulvorn::{Budget, Fed, Kind, Module, Reason, Rules, Skipped, Type, Why};

const MODULE: &str = "M DEFINITIONS AUTOMATIC TAGS ::= BEGIN
Msg ::= SEQUENCE { id INTEGER (0..7), ok BOOLEAN DEFAULT TRUE, note IA5String (SIZE (0..3)) OPTIONAL }
All ::= SEQUENCE { far INTEGER, colour ENUMERATED { red, green }, key OCTET STRING, bits BIT STRING,
    one CHOICE { number INTEGER (0..255), none NULL }, list SEQUENCE OF Msg, word UTF8String }
Low ::= SEQUENCE { id INTEGER (0..3), ok BOOLEAN DEFAULT TRUE, note IA5String (SIZE (0..3)) OPTIONAL }
Wide ::= INTEGER
END";

const ALL: &str = r#"{"far":-70000000000,"colour":"green","key":"00ff","bits":"101","one":{"number":200},
    "list":[{"id":5,"note":"A"},{"id":0}],"word":"ä"}"#;

fn reason<T>(result: Result<T, tulvorn::Error>) -> Reason {
    result.err().expect("a fault").reason
}

#[test]
fn tells_integers_up_to_2_to_64() {
    let wide = Module::read(MODULE).unwrap().ty("Wide").unwrap();
    for (number, octets) in [
        (i64::MAX as u64, [8, 0x7f, 255, 255, 255, 255, 255, 255, 255].to_vec()),
        (i64::MAX as u64 + 1, [9, 0, 0x80, 0, 0, 0, 0, 0, 0, 0].to_vec()),
        (u64::MAX, [9, 0, 255, 255, 255, 255, 255, 255, 255, 255].to_vec()),
    ] {
        let value = wide.read_json(&number.to_string()).unwrap();
        for rules in [Rules::Per, Rules::Oer] {
            assert_eq!(value.encode(rules).unwrap(), octets);
            let read = wide.decode(rules, &octets).unwrap();
            assert_eq!(read.at("").as_u64(), Some(number));
            assert_eq!(read.at("").as_i64(), i64::try_from(number).ok());
            assert_eq!(read.at("").as_i128(), Some(i128::from(number)));
            assert_eq!(read.to_json().unwrap(), number.to_string());
        }
    }
    assert!(wide.read_json("18446744073709551616").is_err());
}

#[test]
fn tells_the_parts_of_a_value() {
    let all = Module::read(MODULE).unwrap().ty("All").unwrap();
    let value = all.read_json(ALL).unwrap();
    assert_eq!(value.at("far").as_i64(), Some(-70_000_000_000));
    assert_eq!(value.at("far").as_u64(), None);
    assert_eq!(value.at("far").as_i128(), Some(-70_000_000_000));
    assert_eq!(value.at("one.number").as_u64(), Some(200));
    assert_eq!(value.at("list[0].note").as_text().as_deref(), Some("A"));
    assert_eq!(value.at("list[1].note").as_text(), None);
    assert_eq!(value.at("list[1].ok").as_bool(), Some(true));
    assert_eq!(value.at("list").count(), Some(2));
    assert_eq!(value.at("key").as_octets(), Some(vec![0, 255]));
    assert_eq!(value.at("bits").as_bits(), Some(vec![true, false, true]));
    assert_eq!(value.at("colour").name().as_deref(), Some("green"));
    assert_eq!(value.at("one").name().as_deref(), Some("number"));
    assert_eq!(value.at("one.number").as_i64(), Some(200));
    assert_eq!(value.at("word").as_text().as_deref(), Some("ä"));
    assert_eq!(value.at("word").as_i64(), None);
    assert_eq!(value.at("").kind(), Some(Kind::Sequence));
    assert_eq!(value["list"][1]["id"].as_i64(), Some(0));
    assert_eq!((value["list"].count(), value["list"][2].kind()), (Some(2), None));
    assert_eq!(value["one"]["number"].part().as_i64(), Some(200));
    let (key, word) = (&value["key"], &value["word"]);
    assert_eq!((key.as_octets(), word.as_text().as_deref()), (Some(vec![0, 255]), Some("ä")));
    assert_eq!(value["bits"].as_bits(), Some(vec![true, false, true]));
    assert_eq!((value["colour"].name().as_deref(), value["list"][0]["ok"].as_bool()), (Some("green"), Some(true)));
    for rules in [Rules::Per, Rules::Oer] {
        let octets = value.encode(rules).unwrap();
        let mut into = vec![0; octets.len()];
        assert_eq!(value.encoded_len(rules).unwrap(), octets.len());
        assert_eq!(value.encode_into(rules, &mut into).unwrap(), octets.len());
        assert_eq!(into, octets);
        let short = into.len() - 1;
        let wanted = octets.len() as u64;
        assert_eq!(reason(value.encode_into(rules, &mut into[..short])), Reason::TooShort { wanted });
        assert_eq!(all.decode(rules, &octets).unwrap().to_json().unwrap(), value.to_json().unwrap());
    }
    let (per, oer) = (value.encode(Rules::Per).unwrap(), value.encode(Rules::Oer).unwrap());
    assert_eq!(all.convert(Rules::Per, &per).unwrap(), oer);
    assert_eq!(all.convert(Rules::Oer, &oer).unwrap(), per);
}

#[test]
fn tells_faults() {
    let module = Module::read(MODULE).unwrap();
    let msg = module.ty("Msg").unwrap();
    let fault = msg.check(Rules::Per, &[0xac]).unwrap_err();
    assert_eq!(fault.reason, Reason::Refused { at: 6, why: Why::Default });
    assert_eq!(fault.to_string(), "refused at bit 6: default");
    assert_eq!(reason(msg.check(Rules::Per, &[0x6b])), Reason::Truncated { taken: 8 });
    assert_eq!(reason(msg.decode(Rules::Per, &[0x28, 0])), Reason::Rest { used: 1 });
    assert_eq!(reason(msg.check(Rules::Per, &[])), Reason::Truncated { taken: 0 });
    assert_eq!(reason(msg.read_json("{")), Reason::NoJson);
    assert_eq!(reason(msg.read_json("{}")), Reason::Shape);
    assert_eq!(reason(msg.read_json(r#"{"id":9}"#)), Reason::NotOfType);
    assert_eq!(reason(module.ty("Other")), Reason::NoName);
    assert_eq!(reason(Module::read("M")), Reason::NoModule { at: 1 });
    assert_eq!(tulvorn::interface(), 2);
    assert!(tulvorn::version().starts_with("0.1.0"));
}

#[test]
fn gives_types_of_few_levels() {
    let module = Module::read(MODULE).unwrap();
    assert_eq!(reason(module.ty_of_levels("All", 4)), Reason::TooDeep);
    assert_eq!(reason(module.ty_of_levels("None", 64)), Reason::NoName);
    assert!(module.ty_of_levels("All", 5).unwrap().read_json(ALL).is_ok());
}

#[test]
fn tells_how_types_differ() {
    let module = Module::read(&MODULE.replace("END", "\n--! Msg owed: ä\nEND")).unwrap();
    assert_eq!(module.difference("Msg").unwrap().as_deref(), Some("owed: ä"));
    assert_eq!(module.difference("All").unwrap().as_deref(), Some("owed: ä"));
    assert_eq!(module.difference("Low").unwrap(), None);
    assert_eq!(reason(module.difference("None")), Reason::NoName);
}

#[test]
fn takes_messages_in_pieces() {
    let all = Module::read(MODULE).unwrap().ty("All").unwrap();
    let value = all.read_json(ALL).unwrap();
    for rules in [Rules::Per, Rules::Oer] {
        let mut octets = value.encode(rules).unwrap();
        octets.push(0);
        for size in 1..octets.len() {
            let mut session = all.open(rules).unwrap();
            let mut taken = 0;
            let found = octets.chunks(size).find_map(|piece| match session.feed(piece).unwrap() {
                Fed::Done { value, used } => Some((value, used)),
                Fed::More => {
                    taken += piece.len();
                    None
                }
            });
            let (found, used) = found.unwrap();
            assert_eq!(taken + used, octets.len() - 1);
            assert_eq!(found.to_json().unwrap(), value.to_json().unwrap());
            assert_eq!(reason(session.feed(&[0])), Reason::Spent);
            session.finish().unwrap();
        }
    }
}

#[test]
fn tells_faults_of_pieces() {
    let msg = Module::read(MODULE).unwrap().ty("Msg").unwrap();
    let mut session = msg.open(Rules::Per).unwrap();
    for _ in 0..2 {
        assert_eq!(reason(session.feed(&[0xac])), Reason::Refused { at: 6, why: Why::Default });
    }
    assert_eq!(reason(session.finish()), Reason::Truncated { taken: 5 });
    let mut session = msg.open(Rules::Oer).unwrap();
    assert!(matches!(session.feed(&[0x40]), Ok(Fed::More)));
    assert_eq!(session.finish().unwrap_err().to_string(), "cut short after 1 octets");
}

#[test]
fn tells_where_a_value_does_not_fit() {
    let module = Module::read(MODULE).unwrap();
    let (msg, low) = (module.ty("Msg").unwrap(), module.ty("Low").unwrap());
    let value = msg.read_json(r#"{"id":5}"#).unwrap();
    assert_eq!(msg.misfit(&value).unwrap(), None);
    assert_eq!(low.misfit(&value).unwrap().as_deref(), Some("$.id: 5 is not in 0..3"));
    assert_eq!(msg.explain_json(r#"{"id":5}"#).unwrap(), None);
    assert_eq!(msg.explain_json(r#"{"id":9}"#).unwrap().as_deref(), Some("not of the type"));
    let shape = msg.explain_json(r#"{"id":5,"ok":1}"#).unwrap();
    assert_eq!(shape.as_deref(), Some("not of the type's shape at $.ok"));
    assert_eq!(reason(msg.explain_json("{")), Reason::NoJson);
}

#[test]
fn reads_messages_of_newer_senders() {
    let module = "M DEFINITIONS AUTOMATIC TAGS ::= BEGIN Old ::= SEQUENCE { a BOOLEAN, ... } END";
    let old = Module::read(module).unwrap().ty("Old").unwrap();
    let newer = old.read_newer(Rules::Oer, &[0x80, 0xff, 2, 7, 0x80, 1, 0x2a]).unwrap();
    assert_eq!(newer.value.at("a").as_bool(), Some(true));
    assert_eq!(newer.skipped, [Skipped { place: 0, octets: vec![0x2a] }]);
    assert_eq!(reason(old.read_newer(Rules::Oer, &[0x80])), Reason::CutMessage);
    assert_eq!(old.explain(Rules::Per, &[0]).unwrap(), None);
    assert!(old.explain(Rules::Per, &[1]).unwrap().is_some());
}

#[test]
fn shares_a_type_between_threads() {
    let msg = Module::read(MODULE).unwrap().ty("Msg").unwrap();
    let threads: Vec<_> = (0..4)
        .map(|_| {
            let mine = msg.share().unwrap();
            std::thread::spawn(move || {
                (0..200u8).all(|at| {
                    let value = mine.decode(Rules::Per, &[at % 8 << 3]).unwrap();
                    value.at("id").as_i64() == Some(i64::from(at % 8))
                })
            })
        })
        .collect();
    drop(msg);
    for thread in threads {
        assert!(thread.join().unwrap());
    }
}

#[test]
fn threads_use_one_type_and_one_value() {
    static MSG: OnceLock<Type> = OnceLock::new();
    let msg = MSG.get_or_init(|| Module::read(MODULE).unwrap().ty("Msg").unwrap());
    let value = msg.read_json(r#"{"id":5,"note":"A"}"#).unwrap();
    std::thread::scope(|scope| {
        for _ in 0..4 {
            scope.spawn(|| {
                for _ in 0..5000 {
                    assert!(msg.check(Rules::Per, &[0x10]).is_ok());
                    assert_eq!(value["id"].as_i64(), Some(5));
                    assert_eq!(value.at("note").as_text().as_deref(), Some("A"));
                }
            });
        }
    });
}

#[test]
fn errors_have_the_words_of_the_library() {
    let error = Module::read("M DEFINITIONS AUTOMATIC TAGS ::= BEGIN\nT ::= U\nEND").err().unwrap();
    assert!(matches!(error.reason, Reason::NoModule { .. }));
    assert!(error.to_string().starts_with("line 2, column 7: "), "{error}");
    assert!(format!("{error:?}").contains("line 2, column 7: "));
    let msg = Module::read(MODULE).unwrap().ty("Msg").unwrap();
    let error = msg.read_json(r#"{"id":5,"ok":1}"#).err().unwrap();
    assert_eq!((error.to_string().as_str(), error.reason), ("not of the type's shape at $.ok", Reason::Shape));
}

#[test]
fn values_are_bounded_by_a_budget() {
    let msg = Module::read(MODULE).unwrap().ty("Msg").unwrap();
    let octets = [0x40, 5, 1, b'A'];
    // the SEQUENCE, its three components, and the octet of a string
    let budget = Budget { entries: 4, octets: 1 };
    assert!(msg.check_within(Rules::Oer, &octets, budget).is_ok());
    assert_eq!(msg.decode_within(Rules::Oer, &octets, budget).unwrap().at("id").as_i64(), Some(5));
    for less in [Budget { entries: 3, octets: 1 }, Budget { entries: 4, octets: 0 }] {
        assert_eq!(reason(msg.check_within(Rules::Oer, &octets, less)), Reason::OverBudget);
        assert_eq!(reason(msg.decode_within(Rules::Oer, &octets, less)), Reason::OverBudget);
    }
}
